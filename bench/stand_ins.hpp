// Bands for a solver whose resources have one limit each: fixed tasks that stand in for the changed level.
#pragma once
#include "plans.hpp"

namespace bench {

// The plan without bands: a resource that has some gets one limit for all days, the constant, and after the plan's own tasks fixed ones on
// it, of height constant - limit on days of another limit. Throws where that would not be exact (stand_ins.cpp says when it is).
Plan with_stand_ins(Plan plan);

}  // namespace bench
