// Makes the fixed tasks that stand in for bands.
//
// On a day of limit L, with a constant C for all days, a fixed task of height C - L makes "the heights add up to at least (or at most) L" of
// "they add up to at least (or at most) C". It covers the day, though, so a day that is otherwise bare is checked as well, and its 0 has to
// keep L. The encoding is exact on a day where C = L (no task stands there), or
//   - where 0 keeps L: sense at least with L <= 0, sense at most with L >= 0. The bare day holds by itself;
//   - or where another task is sure on the resource from the start: the day is never bare.
// This holds of the allowed plans and of each rule of document 01. Shortfall and need ask for a sure task: if the only one is the fixed task,
// no sure task lowers the hopes, so all hopes and all others are at least 0 (sense at most: over the negation) and keep L, and neither
// rule says more than before. Bar and height ask for no other task. A fixed task itself can only be left empty, where all hopes are below C:
// that is the plan's own shortfall. So settling leaves the same, after the same passes. Crew plans are of the first sort, feeder plans of the
// second: on each feeder one turbine group runs all year.
#include "stand_ins.hpp"

#include <algorithm>
#include <map>
#include <stdexcept>

namespace bench {
namespace {

// The days from .. to - 1 of one limit.
struct Stretch {
  int from, to, limit;
};

// The days that tasks may cover on a resource, cut where its limit changes: on other days no limit matters.
std::vector<Stretch> stretches(const Plan &plan, int r) {
  auto [from, to] = days_on(plan, r);
  std::vector<Stretch> found;
  if (from < to) found.push_back({from, to, plan.limits[r]});
  for (const Band &band : plan.bands) {
    if (band.place != r || band.first >= to || found.empty()) continue;
    if (band.first <= from) found.back().limit = band.limit;
    else if (band.limit != found.back().limit) found.back().to = band.first, found.push_back({band.first, to, band.limit});
  }
  return found;
}

// The limit of the most stretches, the first among equals: so the fewest tasks stand in.
int constant_of(const std::vector<Stretch> &found) {
  std::map<int, int> often;
  for (const Stretch &s : found) often[s.limit]++;
  auto less_often = [&often](const Stretch &a, const Stretch &b) { return often[a.limit] < often[b.limit]; };
  return std::max_element(found.begin(), found.end(), less_often)->limit;
}

bool kept_by_none(const Plan &plan, int limit) { return plan.at_least ? limit <= 0 : limit >= 0; }

// On each of its days some task is sure on the resource.
bool never_bare(const Plan &plan, int r, Stretch s) {
  for (int day = s.from; day < s.to; day++) {
    auto sure = [r, day](const Task &t) { return t.set == 1u << r && t.origin.high <= day && day < t.end.low; };
    if (std::none_of(plan.tasks.begin(), plan.tasks.end(), sure)) return false;
  }
  return true;
}

Task fixed_task(int r, Stretch s, int height) {
  auto one = [](int value) { return Range{value, value}; };
  return {1u << r, one(s.from), one(s.to - s.from), one(s.to), one(height)};
}

}  // namespace

Plan with_stand_ins(Plan plan) {
  std::vector<Task> fixed;
  for (int r = 0; r < static_cast<int>(plan.limits.size()); r++) {
    std::vector<Stretch> found = stretches(plan, r);
    if (found.empty()) continue;
    int constant = constant_of(found);
    for (const Stretch &s : found) {
      if (s.limit == constant) continue;
      if (!kept_by_none(plan, s.limit) && !never_bare(plan, r, s)) throw std::logic_error("fixed tasks can't stand in for the bands of this plan");
      fixed.push_back(fixed_task(r, s, constant - s.limit));
    }
    plan.limits[r] = constant;
  }
  plan.tasks.insert(plan.tasks.end(), fixed.begin(), fixed.end());
  plan.stand_ins = static_cast<int>(fixed.size());
  plan.bands.clear();
  return plan;
}

}  // namespace bench
