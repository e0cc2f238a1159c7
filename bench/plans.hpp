// The plans that both sides are measured on: the patterns of report T2001:11, Table 2, and service plans of turbine groups, without bands
// and with.
#pragma once
#include <cstdint>
#include <string>
#include <vector>

namespace bench {

struct Range {
  int low, high;
  bool fixed() const { return low == high; }
};

// set: bit k is resource k
struct Task {
  unsigned set;
  Range origin, duration, end, height;
};

// From its first day on until the same resource's next band, the limit of the resource at that place.
struct Band {
  int place, first, limit;
};

// A plan as document 01 and requests 1 and 4 have it: at least or at most, a limit for each resource, tasks, bands, resources plain or held.
struct Plan {
  bool at_least;
  std::vector<int> limits;
  std::vector<Task> tasks;
  std::string kind;  // table, crews, feeders, season or stepped; any: crews, each service by any of them
  std::vector<Band> bands = {};
  int stand_ins = 0;  // the last so many tasks are fixed ones that stand in for bands: see stand_ins.hpp
  bool held = false;  // every resource, else none
};

// Plan number 0 .. plan_count() - 1 of so many tasks, the same for one seed: first Table 2's 576 patterns (288 in either sense), then service
// plans, crews (at most) and feeders (at least) in turn; from plain_count() on those with bands: crane seasons (at least), then stepped ones,
// which are service plans with 64 bands on one resource (at most and at least in turn).
int plain_count();
int plan_count();
Plan plan_of(int tasks, std::uint64_t seed, int number);

// A service plan with exactly so many crews or feeders, 1 .. most_resources, instead of the drawn number; one may be left without a task. An
// even plan number is a crew plan, an odd one a feeder plan. Sets::any, for crew plans only: the same tasks, but each service may be done by
// any crew; so a schedule keeps other levels, and the limits are others.
constexpr int most_resources = 16;
enum class Sets { drawn, any };
Plan plan_with_resources(int tasks, std::uint64_t seed, int number, int resources, Sets sets);

// A stepped plan with so many bands instead of 64: the same tasks and the same limits of resources.
constexpr int most_bands = 64;
Plan stepped_plan_of(int tasks, std::uint64_t seed, int number, int bands);

// The days that tasks may cover on a resource: from .. to - 1 (from above to where no task may be placed there).
struct Days {
  int from, to;
};
Days days_on(const Plan &plan, int r);

// The same plan with each band at its resource's own limit (bands that change nothing), and without its bands.
Plan with_level_bands(Plan plan);
Plan without_bands(Plan plan);

// The same plan with every resource held: the bare days between its tasks are checked too.
Plan with_held_resources(Plan plan);

// The plan as a plan file, and the tasks that a plan file holds.
std::vector<std::uint8_t> file_of(const Plan &plan);
std::vector<Task> tasks_of(const std::vector<std::uint8_t> &file);

}  // namespace bench
