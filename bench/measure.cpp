// Measures settling by the engine and by Gecode on the same plans in one run, turn about, and prints one line a plan.
//
//   measure all SEED SECONDS             every plan of every size; SECONDS is the time for all
//   measure ours SEED SIZE NUMBERS       each plan of the list (as 640,641) once, inside the function `measured_ours` (for counting
//                                        instructions); prints all passes together, and how many plans had no plan
//   measure ours SEED SIZE NUMBERS BANDS [level]     the same of stepped plans with so many bands; level: bands that change nothing
//   measure ours SEED SIZE NUMBERS resources COUNT [any]     the same of service plans with so many crews or feeders, 1 to 16; any (crew
//                                        plans only): each service may be done by any crew
//   measure ours SEED SIZE NUMBERS held ...     the same plans with every resource held; after `held` nothing or the words of the two above
//   measure times SEED SIZE NUMBERS ...  prints the nanoseconds of settling each of these plans once, the best turn of each, all together;
//                                        after NUMBERS the same words as for `ours`
//   measure gecode SEED SIZE NUMBERS     each plan of the list once, inside `measured_gecode`
//   measure bands                        says whether the engine takes plans with bands
//   measure held                         says whether the engine takes plans with held resources
#include "../include/gristwaltz.h"
#ifdef WITH_GECODE
#include "gecode_side.hpp"
#endif
#include "plans.hpp"
#include "stand_ins.hpp"

#include <algorithm>
#include <chrono>
#include <cstdio>
#include <cstdlib>
#include <sstream>
#include <string>

namespace {

using namespace bench;
using Clock = std::chrono::steady_clock;

constexpr int sizes[] = {10, 50, 100, 256};
constexpr int most_turns = 25, least_turns = 3;
constexpr int times_turns = 200;  // of `times`, which measures a few plans only
constexpr double shortest_timing = 10000;  // ns: shorter calls are repeated inside one timing
constexpr std::size_t most_tasks = 256;

double since(Clock::time_point start) { return std::chrono::duration<double, std::nano>(Clock::now() - start).count(); }

long values(const std::vector<Task> &tasks) {
  long sum = 0;
  for (const Task &t : tasks) {
    sum += __builtin_popcount(t.set);
    for (Range range : {t.origin, t.duration, t.end, t.height}) sum += range.high - range.low + 1;
  }
  return sum;
}

// One line of the measurements. Times in nanoseconds, the best of all turns; -1 where Gecode is not there, or the plan has no bands.
struct Line {
  double ours = -1, gecode = -1, posted = -1, propagation = -1;  // gecode: the whole job; posted: setup and propagation
  double bare = -1, level = -1;                                  // ours on the plan without its bands, and with bands that change nothing
  std::uint64_t answer = 0, bare_answer = 0;
  long ours_removed = -1, gecode_removed = -1, holes = -1;
  int gecode_no_plan = -1, turns = 0, compared = -1;  // compared: ours with stand-ins gave the same (0: they are too many tasks for ours)
};

// Nanoseconds of one run of a job, after one run that is not timed: neither side pays for what the other left in the caches. A short job is
// repeated inside one timing, so often as the first timing says.
template <class Job>
class Timed {
 public:
  explicit Timed(Job job) : job_(job), inside_(1) {
    inside_ = std::clamp(static_cast<int>(shortest_timing / std::max(1.0, time())), 1, 1000);
  }
  double time() {
    job_();
    auto start = Clock::now();
    for (int k = 0; k < inside_; k++) job_();
    return since(start) / inside_;
  }

 private:
  Job job_;
  int inside_;
};

struct Ours {
  std::vector<std::uint8_t> file, out;
  explicit Ours(const Plan &plan) : file(file_of(plan)), out(file.size()) {}
  std::uint64_t settle() { return gristwaltz_settle(file.data(), file.size(), out.data(), out.size()); }
};

void best(double &so_far, double now) { so_far = so_far < 0 ? now : std::min(so_far, now); }

#ifdef WITH_GECODE
void gecode_whole(const Plan &plan, std::vector<Task> &narrowed) { gecode_job(plan, narrowed); }
void gecode_in_parts(const Plan &plan, Line &line) {
  GecodeTimes times = gecode_parts(plan);
  best(line.posted, times.setup + times.propagation);
  best(line.propagation, times.propagation);
}
void gecode_result(const Plan &plan, Line &line) {
  GecodeLeft left = gecode_left(plan);
  line.gecode_no_plan = left.no_plan;
  if (left.no_plan) return;
  line.gecode_removed = values(plan.tasks) - values(left.tasks);
  line.holes = left.holes;
}
constexpr bool with_gecode = true;
#else
void gecode_whole(const Plan &, std::vector<Task> &) {}
void gecode_in_parts(const Plan &, Line &) {}
void gecode_result(const Plan &, Line &) {}
constexpr bool with_gecode = false;
#endif

// A measurement of what is not what it should be is worth nothing.
void demand(bool holds, const char *what, const Plan &plan) {
  if (holds) return;
  std::fprintf(stderr, "measure: %s (%s, %zu tasks, %zu bands%s)\n", what, plan.kind.c_str(), plan.tasks.size(), plan.bands.size(),
               plan.held ? ", held" : "");
  std::exit(1);
}

void demand_accepted(std::uint64_t answer, const Plan &plan) {
  demand(gristwaltz_refusal(answer) == 0 || gristwaltz_refusal(answer) == 7, "the plan does not pass the entry checks", plan);
}

bool same_tasks(const Task &a, const Task &b) {
  auto same = [](Range x, Range y) { return x.low == y.low && x.high == y.high; };
  return a.set == b.set && same(a.origin, b.origin) && same(a.duration, b.duration) && same(a.end, b.end) && same(a.height, b.height);
}

// Both plans settle to the same first tasks after the same passes, or neither settles.
bool same_settling(const Plan &one, const Plan &other) {
  Ours here(one), there(other);
  std::uint64_t answer = here.settle();
  if (answer != there.settle()) return false;
  if (gristwaltz_refusal(answer) != 0) return true;
  std::vector<Task> some = tasks_of(here.out), others = tasks_of(there.out);
  return std::equal(some.begin(), some.begin() + std::min(some.size(), others.size()), others.begin(), same_tasks);
}

// What the bands of a plan cost: ours on the plan as it is, without them, and with bands that change nothing, in turn.
void measure_bands(const Plan &plan, const Plan &given, Line &line) {
  Plan none = without_bands(plan), unchanged = with_level_bands(plan);
  demand(same_settling(none, unchanged), "bands at their resource's own limit change what settling leaves", plan);
  line.compared = given.tasks.size() <= most_tasks;
  demand(!line.compared || same_settling(plan, given), "settling with stand-ins leaves something else", plan);
  Ours ours(plan), bare(none), level(unchanged);
  line.bare_answer = bare.settle();
  auto timed = [](Ours &one) { return Timed([&one] { one.settle(); }); };
  auto all = timed(ours), without = timed(bare), with_level = timed(level);
  for (int k = 0; k < line.turns; k++) best(line.ours, all.time()), best(line.bare, without.time()), best(line.level, with_level.time());
}

Line measured(const Plan &plan, double budget) {
  Line line;
  Ours ours(plan);
  Plan given = with_stand_ins(plan);
  std::vector<Task> narrowed = plan.tasks;
  auto start = Clock::now();
  line.answer = ours.settle();
  demand_accepted(line.answer, plan);
  if (gristwaltz_refusal(line.answer) == 0) line.ours_removed = values(plan.tasks) - values(tasks_of(ours.out));
  gecode_result(given, line);
  Timed settling([&ours] { ours.settle(); });
  Timed gecode([&given, &narrowed] { gecode_whole(given, narrowed); });
  while (line.turns < least_turns || (line.turns < most_turns && since(start) < budget)) {
    bool first = line.turns++ % 2 == 0;
    if (first) best(line.ours, settling.time());
    if (with_gecode) best(line.gecode, gecode.time());
    gecode_in_parts(given, line);
    if (!first) best(line.ours, settling.time());
  }
  if (!plan.bands.empty()) measure_bands(plan, given, line);
  return line;
}

// An archive from before request 1 refuses every file with bands, one from before request 4 every file with a held resource.
bool takes(const Plan &plan) {
  std::vector<std::uint8_t> file = file_of(plan);
  return gristwaltz_check(file.data(), file.size()) == 0;
}
bool takes_bands() { return takes({true, {0}, {}, "", {{0, 0, 0}}}); }
bool takes_held() { return takes(with_held_resources({true, {0}, {}, ""})); }

void print_line(int size, int number, const Plan &plan, const Line &line) {
  std::printf("%d %d %s %s %u %u %ld %.0f %.0f %.0f %.0f %ld %d %ld %ld %d", size, number, plan.kind.c_str(), plan.at_least ? "least" : "most",
              gristwaltz_refusal(line.answer), gristwaltz_passes(line.answer), values(plan.tasks), line.ours, line.gecode, line.posted,
              line.propagation, line.ours_removed, line.gecode_no_plan, line.gecode_removed, line.holes, line.turns);
  std::printf(" %zu %.0f %.0f %u %u %d\n", plan.bands.size(), line.bare, line.level, gristwaltz_refusal(line.bare_answer),
              gristwaltz_passes(line.bare_answer), line.compared);
}

void measure_all(std::uint64_t seed, double seconds) {
  std::printf("size number kind sense refusal passes values ours gecode posted propagation ours_removed gecode_no_plan gecode_removed holes turns "
              "bands bare level bare_refusal bare_passes compared\n");
  double left = seconds * 1e9;
  int plans = takes_bands() ? plan_count() : plain_count();
  int sizes_left = static_cast<int>(std::size(sizes));
  for (int size : sizes) {
    auto start = Clock::now();
    double share = left / sizes_left--;
    for (int k = 0; k < plans; k++) {
      Plan plan = plan_of(size, seed, k);
      print_line(size, k, plan, measured(plan, (share - since(start)) / (plans - k)));
    }
    std::fflush(stdout);
    left -= since(start);
  }
}

}  // namespace

extern "C" __attribute__((noinline)) std::uint64_t measured_ours(const std::vector<std::uint8_t> &file, std::vector<std::uint8_t> &out) {
  return gristwaltz_settle(file.data(), file.size(), out.data(), out.size());
}

extern "C" __attribute__((noinline)) void measured_gecode(const Plan &plan, std::vector<Task> &narrowed) {
  gecode_whole(plan, narrowed);
}

namespace {

// Each plan once, inside the function that is counted. Once before that, so that what a program does once only (finding library functions,
// first memory) is not counted.
void count_ours(const std::vector<Plan> &plans) {
  unsigned passes = 0, no_plan = 0;
  for (const Plan &plan : plans) {
    Ours ours(plan);
    ours.settle();
    std::uint64_t answer = measured_ours(ours.file, ours.out);
    demand_accepted(answer, plan);
    passes += gristwaltz_passes(answer), no_plan += gristwaltz_refusal(answer) == 7;
  }
  std::printf("%u %u\n", passes, no_plan);
}

// Each plan's best turn by itself: a disturbance spoils one timing and not the sum.
void time_ours(const std::vector<Plan> &plans) {
  double all = 0;
  for (const Plan &plan : plans) {
    Ours ours(plan);
    demand_accepted(ours.settle(), plan);
    Timed settling([&ours] { ours.settle(); });
    double shortest = -1;
    for (int k = 0; k < times_turns; k++) best(shortest, settling.time());
    all += shortest;
  }
  std::printf("%.0f\n", all);
}

void count_gecode(const std::vector<Plan> &plans) {
  for (const Plan &plan : plans) {
    Plan given = with_stand_ins(plan);
    std::vector<Task> narrowed = plan.tasks;
    gecode_whole(given, narrowed), measured_gecode(given, narrowed);
  }
}

// The words that name plans: SEED SIZE NUMBERS, then held or not, then nothing, BANDS [level], or resources COUNT [any].
bool with_held(const std::vector<std::string> &words) { return words.size() > 3 && words[3] == "held"; }

std::vector<std::string> without_held(std::vector<std::string> words) {
  if (with_held(words)) words.erase(words.begin() + 3);
  return words;
}

// From here to plan_named the words are those without held.
bool with_resources(const std::vector<std::string> &words) { return words.size() > 3 && words[3] == "resources"; }

bool name_plans(const std::vector<std::string> &words) {
  if (!with_resources(words)) return words.size() >= 3 && words.size() <= 5;
  if (words.size() < 5 || words.size() > 6 || (words.size() == 6 && words[5] != "any")) return false;
  int resources = std::stoi(words[4]);
  return resources >= 1 && resources <= most_resources;
}

Plan plan_named(const std::vector<std::string> &words, int number) {
  std::uint64_t seed = std::stoull(words[0]);
  int size = std::stoi(words[1]);
  if (words.size() == 3) return plan_of(size, seed, number);
  if (with_resources(words)) {
    Sets sets = words.size() > 5 ? Sets::any : Sets::drawn;
    Plan plan = plan_with_resources(size, seed, number, std::stoi(words[4]), sets);
    demand(sets == Sets::drawn || !plan.at_least, "any is for crew plans only", plan);
    return plan;
  }
  Plan plan = stepped_plan_of(size, seed, number, std::stoi(words[3]));
  return words.size() > 4 ? with_level_bands(plan) : plan;
}

std::vector<Plan> plans_named(const std::vector<std::string> &words) {
  std::vector<Plan> plans;
  std::istringstream numbers(words[2]);
  for (std::string number; std::getline(numbers, number, ',');) {
    Plan plan = plan_named(without_held(words), std::stoi(number));
    plans.push_back(with_held(words) ? with_held_resources(plan) : plan);
  }
  return plans;
}

}  // namespace

int main(int count, char **given) {
  std::vector<std::string> words(given + std::min(count, 2), given + count);
  std::string what = count > 1 ? given[1] : "";
  if (what == "all" && words.size() == 2) measure_all(std::stoull(words[0]), std::stod(words[1]));
  else if (what == "ours" && name_plans(without_held(words))) count_ours(plans_named(words));
  else if (what == "times" && name_plans(without_held(words))) time_ours(plans_named(words));
  else if (what == "gecode" && words.size() == 3) count_gecode(plans_named(words));
  else if (what == "bands" && words.empty()) std::puts(takes_bands() ? "yes" : "no");
  else if (what == "held" && words.empty()) std::puts(takes_held() ? "yes" : "no");
  else {
    std::fprintf(stderr, "usage: measure all SEED SECONDS | measure ours|times SEED SIZE NUMBERS [held] [BANDS [level] | resources COUNT [any]] | "
                         "measure gecode SEED SIZE NUMBERS | measure bands | measure held\n");
    return 2;
  }
  return 0;
}
