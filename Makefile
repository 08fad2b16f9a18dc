# `make` proves and builds the programs and the library, `make install PREFIX=..` puts them, the library's headers and
# modules, the scripts, the examples, the manual pages and the shells' completions where a package would, and
# `make check` runs all that is checked outside the merge gate.
PREFIX = /usr/local
DESTDIR =
include = $(DESTDIR)$(PREFIX)/include
lib = $(DESTDIR)$(PREFIX)/lib
site = $(lib)/python3/dist-packages
libexec = $(DESTDIR)$(PREFIX)/libexec/mesh
bin = $(DESTDIR)$(PREFIX)/bin
share = $(DESTDIR)$(PREFIX)/share
ns3 = $(share)/mesh/ns3
man = $(share)/man
doc = $(share)/doc/mesh
bash = $(share)/bash-completion/completions
zsh = $(share)/zsh/site-functions

# The crates of the programs; the start script of mesh_cli is `mesh`.
crates = mesh_cli mesh_capture mesh_check mesh_node mesh_places mesh_state mesh_watch mesh_why mesh_channel mesh_explore
starts = $(crates:mesh_cli=mesh)
pages = $(starts:=.1)

all:
	for crate in $(crates); do ./build $$crate || exit; done
	tools/library
	view/wasm

check:
	checks/all

# Makes docs/play.html anew, of the proved library.
play:
	tools/play

# Makes a tar ball of static programs, which needs no toolchain (RELEASING.md).
dist: all
	tools/dist

# The start script finds the programs and the scripts around itself, and links are followed to it.
install: all
	install -d "$(libexec)/programs" "$(bin)" "$(man)/man1" "$(man)/man5" "$(doc)/examples/three-routers" "$(bash)" "$(zsh)"
	for folder in bin python python/meshtext python/meshtable python/meshchart scripts scripts/traces tools view view/live; do install -d "$(libexec)/$$folder" || exit; done
	for file in bin/* python/*.* python/mesh*/*.py python/mesh*/py.typed scripts/* scripts/traces/* tools/start.sh tools/input.sh tools/commands view/index.html view/make view/live/*; do \
	    [ ! -f $$file ] || install -m $$([ -x $$file ] && echo 755 || echo 644) $$file "$(libexec)/$$file" || exit; \
	done
	for crate in $(crates); do \
	    install -m 755 crates/$$crate/out/$$crate "$(libexec)/programs" || exit; \
	done
	install -m 644 out/mesh.wasm "$(libexec)/programs"
	bin/mesh --version | sed 's/.* of commit \([^,]*\),.*/\1/' >"$(libexec)/COMMIT"
	chmod 644 "$(libexec)/COMMIT"
	install -m 644 VERSION "$(libexec)/VERSION"
	for start in $(starts); do ln -sf ../libexec/mesh/bin/$$start "$(bin)/$$start" || exit; done
	for page in $(pages); do install -m 644 docs/man/$$page "$(man)/man1/$$page" || exit; done
	install -m 644 docs/man/mesh.5 "$(man)/man5/mesh.5"
	install -m 644 LICENSE-MIT LICENSE-APACHE "$(doc)"
	install -m 644 examples/*.* "$(doc)/examples"
	install -m 644 examples/three-routers/* "$(doc)/examples/three-routers"
	"$(libexec)/view/make" --live >"$(doc)/play.html"
	chmod 644 "$(doc)/play.html"
	install -m 644 completions/mesh.bash "$(bash)/mesh"
	install -m 644 completions/_mesh "$(zsh)/_mesh"
	install -d "$(include)" "$(lib)/pkgconfig" "$(lib)/cmake/aodv" "$(site)"
	install -m 644 include/aodv.h bindings/cpp/aodv.hpp "$(include)"
	install -m 644 out/libaodv.a "$(lib)"
	[ ! -e out/libaodv.so.1 ] || { install -m 755 out/libaodv.so.1 "$(lib)" && ln -sf libaodv.so.1 "$(lib)/libaodv.so"; }
	sed 's|@VERSION@|'"$$(cat VERSION)"'|' include/aodv.pc.in >"$(lib)/pkgconfig/aodv.pc"
	install -m 644 include/aodvConfig.cmake "$(lib)/cmake/aodv"
	sed 's|@VERSION@|'"$$(cat VERSION)"'|' include/aodvConfigVersion.cmake.in >"$(lib)/cmake/aodv/aodvConfigVersion.cmake"
	chmod 644 "$(lib)/pkgconfig/aodv.pc" "$(lib)/cmake/aodv/aodvConfigVersion.cmake"
	install -m 644 bindings/python/aodv.py "$(site)"
	install -d "$(ns3)" "$(share)/mesh/wireshark"
	install -m 644 wireshark/mesh_data.lua "$(share)/mesh/wireshark"
	install -m 644 bindings/ns3/*.h bindings/ns3/*.cc "$(ns3)"

uninstall:
	rm -rf "$(libexec)" "$(doc)/examples" "$(doc)/play.html" "$(doc)/LICENSE-MIT" "$(doc)/LICENSE-APACHE"
	[ ! -d "$(doc)" ] || rmdir "$(doc)" 2>/dev/null || :
	for start in $(starts); do rm -f "$(bin)/$$start"; done
	for page in $(pages); do rm -f "$(man)/man1/$$page"; done
	rm -f "$(man)/man5/mesh.5" "$(bash)/mesh" "$(zsh)/_mesh"
	rm -f "$(include)/aodv.h" "$(include)/aodv.hpp" "$(lib)/libaodv.a" "$(lib)/libaodv.so" "$(lib)/libaodv.so.1"
	rm -f "$(lib)/pkgconfig/aodv.pc" "$(site)/aodv.py"
	rm -rf "$(ns3)" "$(share)/mesh/wireshark" "$(lib)/cmake/aodv"
	[ ! -d "$(share)/mesh" ] || rmdir "$(share)/mesh" 2>/dev/null || :

.PHONY: all check dist play install uninstall
