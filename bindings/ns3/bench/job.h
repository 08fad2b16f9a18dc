// A job: what a mesh has to do. jobs/README.md says how it is written.
#ifndef LIBAODV_JOB_H
#define LIBAODV_JOB_H

#include <fstream>
#include <sstream>
#include <stdexcept>
#include <string>
#include <vector>

// Nodes count from 0.
struct JobLine
{
    std::string word;
    std::size_t a;
    std::size_t b;
};

struct Job
{
    std::size_t nodes{0};
    std::vector<JobLine> start; // links
    std::vector<JobLine> rest;  // links, cuts and data, one after another
};

inline Job
ReadJob(const std::string& name)
{
    Job job;
    std::ifstream file(name);
    for (std::string text; std::getline(file, text);)
    {
        std::istringstream words(text);
        std::string word;
        std::size_t a = 0;
        std::size_t b = 0;
        words >> word >> a;
        if (word == "nodes")
        {
            job.nodes = a;
            continue;
        }
        words >> b;
        const bool is_known = word == "link" || word == "cut" || word == "data";
        if (!words || !is_known || a < 1 || b < 1 || a > job.nodes || b > job.nodes || a == b)
        {
            throw std::runtime_error(name + ": not a line of a job: " + text);
        }
        const bool is_start = word == "link" && job.rest.empty();
        (is_start ? job.start : job.rest).push_back({word, a - 1, b - 1});
    }
    if (job.nodes == 0)
    {
        throw std::runtime_error(name + ": no job");
    }
    return job;
}
#endif
