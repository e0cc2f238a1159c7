// Gecode 6.2 as a planner would use it, in its fastest form for the plan at hand.
#include "gecode_side.hpp"

#include <gecode/int.hh>

#include <chrono>

namespace bench {
namespace {

using Gecode::IntArgs;
using Gecode::IntVar;
using Gecode::IntVarArgs;

bool fixed_machines(const Plan &plan) {
  for (const Task &t : plan.tasks)
    if (t.set & (t.set - 1)) return false;
  return true;
}
bool fixed_durations(const Plan &plan) {
  for (const Task &t : plan.tasks)
    if (!t.duration.fixed()) return false;
  return true;
}
bool fixed_heights(const Plan &plan) {
  for (const Task &t : plan.tasks)
    if (!t.height.fixed()) return false;
  return true;
}

Range ends(const IntVar &x) { return {x.min(), x.max()}; }

IntVar variable(Gecode::Space &home, Range range) { return IntVar(home, range.low, range.high); }

// A set of machines: all in a row, as a range, or with gaps, as a set.
IntVar machine_variable(Gecode::Space &home, unsigned set) {
  int low = __builtin_ctz(set), high = 31 - __builtin_clz(set);
  if (set >> low == (1u << (high - low + 1)) - 1) return IntVar(home, low, high);
  IntArgs places;
  for (int r = low; r <= high; r++)
    if (set >> r & 1) places << r;
  return IntVar(home, Gecode::IntSet(places));
}

// Where all machines, durations or heights are single values, Gecode's forms for numbers are taken: they are the faster ones.
class PlanSpace : public Gecode::Space {
 public:
  explicit PlanSpace(const Plan &plan) {
    bool m = fixed_machines(plan), p = fixed_durations(plan), u = fixed_heights(plan);
    int n = static_cast<int>(plan.tasks.size());
    origin = IntVarArgs(n), end = IntVarArgs(n);
    if (m) machine_number = IntArgs(n); else machine = IntVarArgs(n);
    if (p) duration_number = IntArgs(n); else duration = IntVarArgs(n);
    if (u) height_number = IntArgs(n); else height = IntVarArgs(n);
    for (int k = 0; k < n; k++) {
      const Task &t = plan.tasks[k];
      origin[k] = variable(*this, t.origin), end[k] = variable(*this, t.end);
      if (m) machine_number[k] = __builtin_ctz(t.set); else machine[k] = machine_variable(*this, t.set);
      if (p) duration_number[k] = t.duration.low; else duration[k] = variable(*this, t.duration);
      if (u) height_number[k] = t.height.low; else height[k] = variable(*this, t.height);
    }
    post_sums(n - plan.stand_ins, p);
    if (m) with_machines(plan, machine_number, p, u);
    else with_machines(plan, machine, p, u);
  }
  PlanSpace(PlanSpace &other) : Gecode::Space(other) {}
  Gecode::Space *copy() override { return new PlanSpace(*this); }

  // As many of the first tasks as there is room for, as Gecode left them; what was a number stays.
  void read(std::vector<Task> &tasks) const {
    for (int k = 0; k < static_cast<int>(tasks.size()); k++) {
      Task &t = tasks[k];
      t.origin = ends(origin[k]), t.end = ends(end[k]);
      if (duration.size() > 0) t.duration = ends(duration[k]);
      if (height.size() > 0) t.height = ends(height[k]);
      if (machine.size() > 0) {
        t.set = 0;
        for (Gecode::IntVarValues v(machine[k]); v(); ++v) t.set |= 1u << v.val();
      }
    }
  }
  long holes() const {
    long sum = 0;
    for (const IntVarArgs *list : {&origin, &duration, &end, &height})
      for (const IntVar &x : *list) sum += static_cast<long>(x.width()) - static_cast<long>(x.size());
    return sum;
  }

 private:
  // origin + duration = end of the plan's own tasks, which the constraint itself does not post
  void post_sums(int own, bool durations_fixed) {
    for (int k = 0; k < own; k++) {
      if (durations_fixed) Gecode::linear(*this, IntArgs({1, -1}), IntVarArgs({end[k], origin[k]}), Gecode::IRT_EQ, duration_number[k]);
      else Gecode::linear(*this, IntArgs({1, 1, -1}), IntVarArgs({origin[k], duration[k], end[k]}), Gecode::IRT_EQ, 0);
    }
  }
  template <class Machines>
  void with_machines(const Plan &plan, const Machines &machines, bool p, bool u) {
    if (p) with_durations(plan, machines, duration_number, u);
    else with_durations(plan, machines, duration, u);
  }
  template <class Machines, class Durations>
  void with_durations(const Plan &plan, const Machines &machines, const Durations &durations, bool u) {
    IntArgs limits(plan.limits);
    if (u) Gecode::cumulatives(*this, machines, origin, durations, end, height_number, limits, !plan.at_least);
    else Gecode::cumulatives(*this, machines, origin, durations, end, height, limits, !plan.at_least);
  }

  IntVarArgs machine, origin, duration, end, height;
  IntArgs machine_number, duration_number, height_number;
};

double since(std::chrono::steady_clock::time_point start) {
  return std::chrono::duration<double, std::nano>(std::chrono::steady_clock::now() - start).count();
}

}  // namespace

void gecode_job(const Plan &plan, std::vector<Task> &narrowed) {
  PlanSpace space(plan);
  if (space.status() != Gecode::SS_FAILED) space.read(narrowed);
}

GecodeTimes gecode_parts(const Plan &plan) {
  auto start = std::chrono::steady_clock::now();
  PlanSpace space(plan);
  double setup = since(start);
  start = std::chrono::steady_clock::now();
  space.status();
  return {setup, since(start)};
}

GecodeLeft gecode_left(const Plan &plan) {
  PlanSpace space(plan);
  if (space.status() == Gecode::SS_FAILED) return {true, {}, 0};
  GecodeLeft left{false, plan.tasks, space.holes()};
  space.read(left.tasks);
  return left;
}

}  // namespace bench
