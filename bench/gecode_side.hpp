// Gecode's side: the same plan as a space with one `cumulatives` constraint and origin + duration = end for each task. Its resources have one
// limit each: every plan here comes without bands, which with_stand_ins has turned into fixed tasks.
#pragma once
#include "plans.hpp"

namespace bench {

// What Gecode left: no plan, or each task's set and ends; and how many values it took out of the middle of ranges beside that.
struct GecodeLeft {
  bool no_plan;
  std::vector<Task> tasks;
  long holes;
};

// The whole job, from a plan in memory to the narrowed tasks in memory: variables and posting, propagation to the fixpoint, reading the
// ends back, releasing the space. `narrowed` has as many places as the plan has own tasks: those that stand in for bands are not read.
void gecode_job(const Plan &plan, std::vector<Task> &narrowed);

// Nanoseconds of its first two parts.
struct GecodeTimes {
  double setup, propagation;
};
GecodeTimes gecode_parts(const Plan &plan);

// Its result.
GecodeLeft gecode_left(const Plan &plan);

}  // namespace bench
