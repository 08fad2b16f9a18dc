# shellcheck shell=bash
# Completes the words of mesh in bash: `. completions/mesh.bash`, or, installed, with no word. `mesh help --words` knows
# them; where it has none, and behind a redirection, file names are completed.
_mesh() {
    case ${COMP_WORDS[COMP_CWORD - 1]} in *[\<\>]) return ;; esac
    local words
    words=$("${COMP_WORDS[0]/#\~/$HOME}" help --words "${COMP_WORDS[@]:1:COMP_CWORD-1}" 2>/dev/null)
    mapfile -t COMPREPLY < <(compgen -W "$words" -- "${COMP_WORDS[COMP_CWORD]}")
}
complete -o default -F _mesh mesh
