// Makes the plans. One random source a plan, from the seed, the size and the plan's number: adding a kind changes no other plan.
#include "plans.hpp"

#include <algorithm>

namespace bench {
namespace {

constexpr int service_plans = 150;  // of either sense
constexpr int season_plans = 100;
constexpr int stepped_plans = 50;  // of either sense
constexpr int year = 365;
constexpr int drawn = 0;  // for a number of resources: the plan draws its own

// The splitmix64 recipe.
class Random {
 public:
  Random(std::uint64_t seed, std::uint64_t size, std::uint64_t number) : state_(seed) {
    state_ = bits() ^ (size << 32);
    state_ = bits() ^ number;
  }
  int within(int low, int high) { return low + static_cast<int>(bits() % static_cast<std::uint64_t>(high - low + 1)); }
  bool one_in(int times) { return within(1, times) == 1; }

 private:
  std::uint64_t bits() {
    std::uint64_t x = (state_ += 0x9E3779B97F4A7C15u);
    x = (x ^ (x >> 30)) * 0xBF58476D1CE4E5B9u;
    x = (x ^ (x >> 27)) * 0x94D049BB133111EBu;
    return x ^ (x >> 31);
  }
  std::uint64_t state_;
};

Range wider(int low, int by) { return {low, low + by}; }

// An end range that is exactly what origins and durations give.
Task task(unsigned set, Range origin, Range duration, Range height) {
  return {set, origin, duration, {origin.low + duration.low, origin.high + duration.high}, height};
}

// ---- limits that bite: what a schedule inside the ranges just keeps

Range negated(Range height) { return {-height.high, -height.low}; }

// The levels of one schedule, sense at least, day by day on each resource.
class Levels {
 public:
  explicit Levels(const std::vector<Task> &tasks) : first_(0) {
    int last = 0;
    for (const Task &t : tasks) first_ = std::min(first_, t.origin.low), last = std::max(last, t.end.high);
    for (auto &days : level_) days.assign(last - first_ + 1, 0);
    for (auto &days : covered_) days.assign(last - first_ + 1, false);
  }
  // the least level on these days if a task of that height joined
  int with(int r, int origin, int days, int height) const {
    auto from = level_[r].begin() + (origin - first_);
    return days == 0 ? 0 : height + *std::min_element(from, from + days);
  }
  void place(int r, int origin, int days, int height) {
    for (int d = origin - first_; d < origin - first_ + days; d++) level_[r][d] += height, covered_[r][d] = true;
  }
  // the least level on a covered day, or `otherwise`
  int least(int r, int otherwise) const { return least(r, first_, first_ + static_cast<int>(level_[r].size()), otherwise); }
  // the same on the days from .. to - 1
  int least(int r, int from, int to, int otherwise) const {
    int least = 1 << 29, last = std::min(to - first_, static_cast<int>(level_[r].size()));
    for (int d = std::max(from - first_, 0); d < last; d++)
      if (covered_[r][d]) least = std::min(least, level_[r][d]);
    return least == 1 << 29 ? otherwise : least;
  }

 private:
  int first_;
  std::vector<int> level_[most_resources];
  std::vector<bool> covered_[most_resources];
};

// Puts one task where the level stays highest among a few places tried.
void schedule(Random &random, Levels &levels, const Task &t) {
  constexpr int tries = 8;
  int days = random.within(t.duration.low, t.duration.high), height = random.within(t.height.low, t.height.high);
  int best_r = 0, best_origin = 0, best_level = 0;
  for (int k = 0; k < tries; k++) {
    int r = 0, origin = random.within(t.origin.low, t.origin.high);
    for (int skip = random.within(0, __builtin_popcount(t.set) - 1); !(t.set >> r & 1) || skip-- > 0;) r++;
    int level = levels.with(r, origin, days, height);
    if (k == 0 || level > best_level) best_r = r, best_origin = origin, best_level = level;
  }
  levels.place(best_r, best_origin, days, height);
}

// One schedule inside the ranges, and how much less than it keeps is asked for: nothing or a little, but one more in one plan of sixteen.
struct Kept {
  Levels levels;
  int less;
};

Kept kept(Random &random, const Plan &plan) {
  std::vector<Task> tasks = plan.tasks;
  if (!plan.at_least)
    for (Task &t : tasks) t.height = negated(t.height);
  std::stable_sort(tasks.begin(), tasks.end(), [](const Task &a, const Task &b) { return a.height.high > b.height.high; });
  Levels levels(tasks);
  for (const Task &t : tasks) schedule(random, levels, t);
  return {levels, random.one_in(16) ? -1 : random.within(0, 2)};
}

// Each limit becomes what the schedule asks for.
Kept set_limits(Random &random, Plan &plan) {
  Kept asked = kept(random, plan);
  for (int r = 0; r < static_cast<int>(plan.limits.size()); r++) {
    int limit = plan.at_least ? plan.limits[r] : -plan.limits[r];
    limit = asked.levels.least(r, limit + asked.less) - asked.less;
    plan.limits[r] = plan.at_least ? limit : -limit;
  }
  return asked;
}

// What the schedule asks for on the days from .. to - 1, a little less drawn anew; the resource's own limit where it covers none of them.
int limit_on(Random &random, const Plan &plan, const Kept &asked, int r, int from, int to) {
  int own = plan.at_least ? plan.limits[r] : -plan.limits[r], less = asked.less < 0 ? asked.less : random.within(0, 2);
  int limit = asked.levels.least(r, from, to, own + less) - less;
  return plan.at_least ? limit : -limit;
}

// ---- report T2001:11, Table 2

struct Pattern {
  int origin, duration, consumption, machine, fixing;  // the table's numbers, from 1
};

Range table_duration(Random &random, int way) {
  switch (way) {
    case 1: return wider(random.within(0, 10), 0);
    case 2: return wider(random.within(0, 200), 0);
    case 3: { int low = random.within(0, 10); return wider(low, random.within(0, 5)); }
    default: { int low = random.within(0, 100); return wider(low, random.within(0, 100)); }
  }
}

Range table_consumption(Random &random, int way) {
  switch (way) {
    case 1: return wider(random.within(0, 10), 0);
    case 2: { int low = random.within(0, 7); return wider(low, random.within(0, 5)); }
    default: { int low = random.within(-10, 0); return wider(low, random.within(0, 10)); }
  }
}

// The table's machines 1..10, and up to 20 for a subset: here at most 16.
unsigned table_machines(Random &random, int way) {
  auto from_to = [](int low, int high) { return ((1u << (high - low + 1)) - 1) << (low - 1); };
  switch (way) {
    case 1: return 1;
    case 2: return from_to(1, 10);
    case 3: { int low = random.within(1, 10); return from_to(low, std::min(low + random.within(0, 10), most_resources)); }
    default: { int only = random.within(1, 10); return from_to(only, only); }
  }
}

int resources_of(int machine_way) { return machine_way == 1 ? 1 : machine_way == 3 ? most_resources : 10; }

Range table_origin(Random &random, int way, int horizon) {
  int low = random.within(1, std::max(1, horizon * 9 / 10));
  switch (way) {
    case 1: return {1, horizon};
    case 2: return {low, horizon};
    default: return {low, low};
  }
}

// "nearly fixed: at most 5 tasks are not completely fixed"
void fix(Random &random, Task &t) {
  auto one = [&random](Range range) { int v = random.within(range.low, range.high); return Range{v, v}; };
  std::vector<unsigned> places;
  for (unsigned r = 0; r < most_resources; r++)
    if (t.set >> r & 1) places.push_back(r);
  t = task(1u << places[random.within(0, static_cast<int>(places.size()) - 1)], one(t.origin), one(t.duration), one(t.height));
}

Plan table_plan(Random &random, int size, Pattern way, bool at_least) {
  std::vector<Task> tasks(size);
  long durations = 0;
  for (Task &t : tasks) {
    t.duration = table_duration(random, way.duration);
    t.height = table_consumption(random, way.consumption);
    t.set = table_machines(random, way.machine);
    durations += t.duration.low;
  }
  // "horizon = h1 h2 (average minimum duration)"
  double h1 = way.machine == 1 ? 50 : 5, h2 = way.consumption == 3 ? 0.5 : 1;
  int horizon = std::max(2, static_cast<int>(h1 * h2 * static_cast<double>(durations) / size));
  for (Task &t : tasks) t = task(t.set, table_origin(random, way.origin, horizon), t.duration, t.height);
  if (way.fixing == 1)
    for (int k = 5; k < size; k++) fix(random, tasks[k]);
  Plan plan{at_least, std::vector<int>(resources_of(way.machine), 0), tasks, "table"};
  set_limits(random, plan);
  return plan;
}

Pattern pattern(int number) {
  Pattern way{};
  way.fixing = 1 + number % 2, number /= 2;
  way.machine = 1 + number % 4, number /= 4;
  way.consumption = 1 + number % 3, number /= 3;
  way.duration = 1 + number % 4, number /= 4;
  way.origin = 1 + number % 3;
  return way;
}
constexpr int patterns = 3 * 4 * 3 * 4 * 2;

// ---- service plans of turbine groups, a year of days

// At most: crews of people. Leave and training are fixed; a service has a window, some days, some people and one to three crews, or any.
Plan crew_plan(Random &random, int size, int resources = drawn, Sets sets = Sets::drawn) {
  int crews = resources != drawn ? resources : random.within(2, 8);
  std::vector<Task> tasks;
  for (int k = 0; k < size; k++) {
    unsigned crew = 1u << random.within(0, crews - 1);
    if (random.one_in(5)) {
      int days = random.within(2, 15), count = random.within(1, 2);
      tasks.push_back(task(crew, wider(random.within(0, year - days), 0), {days, days}, {count, count}));
      continue;
    }
    for (int more = random.within(0, 2); more > 0; more--) crew |= 1u << random.within(0, crews - 1);
    if (sets == Sets::any) crew = (1u << crews) - 1;
    int days = random.within(2, 14), window = random.within(0, 30), count = random.within(1, 3);
    int spare_days = random.one_in(3) ? random.within(1, 4) : 0, spare_people = random.one_in(3) ? 1 : 0;
    int first = random.within(0, year - window - days - spare_days);
    tasks.push_back(task(crew, wider(first, window), wider(days, spare_days), wider(count, spare_people)));
  }
  Plan plan{false, std::vector<int>(crews, 0), tasks, sets == Sets::any ? "any" : "crews"};
  set_limits(random, plan);
  return plan;
}

// At least: feeders with a level to be kept. One turbine group of each feeder runs all year, others for some months; a turbine out of
// service takes its power away within a window; a mobile unit brings power to one feeder or another.
Plan feeder_plan(Random &random, int size, int resources = drawn) {
  int feeders = resources != drawn ? resources : std::clamp(size / random.within(8, 16), 1, 8);
  // at most half of the tasks: where feeders outnumber them, something is left to be placed
  int all_year = std::min(feeders, (size + 1) / 2);
  std::vector<Task> tasks;
  for (int k = 0; k < size; k++) {
    unsigned feeder = 1u << (k < all_year ? k : random.within(0, feeders - 1));
    int kind = random.within(1, 10);
    if (k < all_year) {
      int power = random.within(40, 90);
      tasks.push_back(task(feeder, {0, 0}, {year, year}, {power - random.within(0, 10), power}));
    } else if (kind <= 3) {
      int days = random.within(30, 120), power = random.within(15, 40);
      tasks.push_back(task(feeder, wider(random.within(0, year - days), 0), {days, days}, {power - random.within(0, 6), power}));
    } else if (kind <= 8) {
      int days = random.within(2, 12), window = random.within(0, 45), power = random.within(10, 30);
      int spare = random.one_in(3) ? random.within(1, 5) : 0, first = random.within(0, year - window - days - spare);
      unsigned other = random.one_in(6) ? 1u << random.within(0, feeders - 1) : 0;
      tasks.push_back(task(feeder | other, wider(first, window), wider(days, spare), {-power, -power + random.within(0, 4)}));
    } else {
      int days = random.within(5, 30), window = random.within(0, 60), power = random.within(4, 14);
      unsigned other = 1u << random.within(0, feeders - 1);
      tasks.push_back(task(feeder | other, wider(random.within(0, year - window - days), window), {days, days}, {random.within(0, power), power}));
    }
  }
  Plan plan{true, std::vector<int>(feeders, 0), tasks, "feeders"};
  set_limits(random, plan);
  return plan;
}

// ---- service plans with bands

// The resource that most tasks may be placed on.
int busiest(const Plan &plan) {
  int best = 0, most = -1;
  for (int r = 0; r < static_cast<int>(plan.limits.size()); r++) {
    int count = static_cast<int>(std::count_if(plan.tasks.begin(), plan.tasks.end(), [r](const Task &t) { return t.set >> r & 1; }));
    if (count > most) best = r, most = count;
  }
  return best;
}

// So many first days spread over these days; where there are fewer days than bands, one a day and on beyond them.
std::vector<int> spread_days(Random &random, Days days, int bands) {
  std::vector<int> firsts;
  int count = std::max(days.to - days.from, bands);
  for (int k = 0; k < bands; k++) firsts.push_back(days.from + k * count / bands + random.within(0, count / bands - 1));
  return firsts;
}

// Crane season: on one feeder the level is higher from one date and back from the next, once to three times a year.
Plan season_plan(Random &random, int size) {
  Plan plan = feeder_plan(random, size);
  plan.kind = "season";
  Kept asked = set_limits(random, plan);
  int r = random.within(0, static_cast<int>(plan.limits.size()) - 1), seasons = random.within(1, 3);
  for (int k = 0; k < seasons; k++) {
    int first = year * k / seasons, half = year / seasons / 2;
    int from = first + random.within(1, half - 1), to = first + half + random.within(0, half - 1);
    plan.bands.push_back({r, from, limit_on(random, plan, asked, r, from, to)});
    plan.bands.push_back({r, to, plan.limits[r]});
  }
  return plan;
}

// Another level every few days: bands spread over the days that tasks may cover on the busiest resource.
Plan stepped_plan(Random &random, int size, bool at_least, int bands) {
  Plan plan = at_least ? feeder_plan(random, size) : crew_plan(random, size);
  plan.kind = "stepped";
  Kept asked = set_limits(random, plan);
  int r = busiest(plan);
  std::vector<int> firsts = spread_days(random, days_on(plan, r), bands);
  for (int k = 0; k < bands; k++)
    plan.bands.push_back({r, firsts[k], limit_on(random, plan, asked, r, firsts[k], k + 1 < bands ? firsts[k + 1] : 1 << 29)});
  return plan;
}

void put(std::vector<std::uint8_t> &file, std::uint32_t value, int bytes) {
  for (int k = 0; k < bytes; k++) file.push_back(static_cast<std::uint8_t>(value >> 8 * k));
}

int number_at(const std::vector<std::uint8_t> &file, std::size_t at) {
  std::uint32_t value = 0;
  for (int k = 0; k < 4; k++) value |= static_cast<std::uint32_t>(file[at + k]) << 8 * k;
  return static_cast<int>(value);
}

}  // namespace

int plain_count() { return 2 * patterns + 2 * service_plans; }
int plan_count() { return plain_count() + season_plans + 2 * stepped_plans; }

Plan plan_of(int tasks, std::uint64_t seed, int number) {
  if (number >= plain_count() + season_plans) return stepped_plan_of(tasks, seed, number, most_bands);
  Random random(seed, tasks, number);
  if (number >= plain_count()) return season_plan(random, tasks);
  if (number < 2 * patterns) return table_plan(random, tasks, pattern(number / 2), number % 2 == 1);
  return number % 2 == 0 ? crew_plan(random, tasks) : feeder_plan(random, tasks);
}

Plan plan_with_resources(int tasks, std::uint64_t seed, int number, int resources, Sets sets) {
  Random random(seed, tasks, number);
  return number % 2 == 0 ? crew_plan(random, tasks, resources, sets) : feeder_plan(random, tasks, resources);
}

Plan stepped_plan_of(int tasks, std::uint64_t seed, int number, int bands) {
  Random random(seed, tasks, number);
  return stepped_plan(random, tasks, number % 2 == 1, bands);
}

Days days_on(const Plan &plan, int r) {
  Days days{1 << 29, -(1 << 29)};
  for (const Task &t : plan.tasks)
    if (t.set >> r & 1) days.from = std::min(days.from, t.origin.low), days.to = std::max(days.to, t.end.high);
  return days;
}

Plan with_level_bands(Plan plan) {
  for (Band &band : plan.bands) band.limit = plan.limits[band.place];
  return plan;
}

Plan without_bands(Plan plan) {
  plan.bands.clear();
  return plan;
}

Plan with_held_resources(Plan plan) {
  plan.held = true;
  return plan;
}

std::vector<std::uint8_t> file_of(const Plan &plan) {
  std::vector<std::uint8_t> file = {'P', 'L', plan.at_least};
  put(file, plan.limits.size(), 1), put(file, plan.tasks.size(), 2);
  std::uint8_t kind = plan.held ? 'H' : 'S';
  for (std::size_t r = 0; r < plan.limits.size(); r++) file.insert(file.end(), {'R', kind}), put(file, r + 1, 4), put(file, plan.limits[r], 4);
  for (const Band &band : plan.bands)
    file.insert(file.end(), {'L', 'B'}), put(file, band.place, 2), put(file, band.first, 4), put(file, band.limit, 4);
  for (const Task &t : plan.tasks) {
    file.insert(file.end(), {'T', 'K'}), put(file, t.set, 2);
    for (Range range : {t.origin, t.duration, t.end, t.height}) put(file, range.low, 4), put(file, range.high, 4);
  }
  return file;
}

std::vector<Task> tasks_of(const std::vector<std::uint8_t> &file) {
  std::vector<Task> tasks;
  auto range = [&file](std::size_t at) { return Range{number_at(file, at), number_at(file, at + 4)}; };
  std::size_t first = 6 + 10u * file[3];
  while (first < file.size() && file[first] == 'L') first += 12;
  for (std::size_t at = first; at < file.size(); at += 36)
    tasks.push_back({static_cast<unsigned>(file[at + 2] | file[at + 3] << 8), range(at + 4), range(at + 12), range(at + 20), range(at + 28)});
  return tasks;
}

}  // namespace bench
