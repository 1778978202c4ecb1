// What a fill is compared to: document 01's row rule in C, with the search for the best split in several forms. Written from document 01
// and from document 002's loop alone. Compiled once for each compiler, with -DCOMPILER=gcc or the like, which begins the exported names.
#include <stdbool.h>
#include <stddef.h>
#include <stdint.h>

#define JOINED(a, b) a##_##b
#define NAMED(compiler, name) JOINED(compiler, name)
#define EXPORT(name) NAMED(COMPILER, name)

static const uint64_t NO_PLAN = UINT64_MAX;
static const uint32_t LARGEST_SIZE = UINT32_MAX;

// Above every limit, and so low that two of these and a charge do not wrap: a part without a plan is held here.
static const uint64_t HELD_COST = UINT64_C(1) << 61;

typedef struct {
    const uint32_t *sizes;
    const uint64_t *costs;
    uint64_t limit;
} Table;

typedef struct {
    uint64_t cost;
    uint32_t left;
} Split;

// The best split of a set of two or more, whose size is known already.
typedef Split (*Search)(Table table, uint32_t set, uint32_t size);

// ---- Charges. As in document 002, one part is for the result and stands outside of the loop, the other is for the split. The model is a
// constant wherever these are called from, so that no choice is left in the loop.

#define ALWAYS_INLINE static inline __attribute__((always_inline))

ALWAYS_INLINE uint64_t blocks(uint64_t rows)
{
    return (rows + 9) / 10;
}

ALWAYS_INLINE uint64_t sorting(uint32_t rows)
{
    // rows | 1 has the same whole logarithm as rows, and 0 costs nothing by the factor rows.
    return (uint64_t)rows * (32 - (uint32_t)__builtin_clz(rows | 1));
}

ALWAYS_INLINE uint64_t nested_loops(uint32_t a, uint32_t b)
{
    // (2^32-1)^2 + 9,899 is below 2^64.
    return ((uint64_t)a * b + 9899) / 9900 + blocks(a < b ? a : b);
}

ALWAYS_INLINE uint64_t charge_for_result(int model, uint32_t size)
{
    switch (model) {
    case 0:
        return size;
    case 1:
        return 0;
    default:
        return 2 * blocks(size);
    }
}

ALWAYS_INLINE uint64_t charge_for_split(int model, uint32_t a, uint32_t b)
{
    switch (model) {
    case 0:
        return 0;
    case 1:
        return sorting(a) + sorting(b);
    default:
        return nested_loops(a, b);
    }
}

// ---- What the forms share: the charge for the result is taken off the limit first, so that a loop compares what is left.

// The loop's state. A split must be below `best`, so at first one above what is left of the limit stands there.
typedef struct {
    uint64_t best;
    uint32_t left;
} Found;

ALWAYS_INLINE uint32_t first_left(uint32_t set)
{
    return set & -set;
}

ALWAYS_INLINE uint32_t next_left(uint32_t set, uint32_t left)
{
    return set & (left - set);
}

// Splits come in mirrored pairs, and every charge is the same for both of a pair. The one without the set's highest relation on the left
// has the lesser number, comes first and wins: a loop that stops at the highest relation's weight misses nothing.
ALWAYS_INLINE uint32_t highest_weight(uint32_t set)
{
    return UINT32_C(1) << (31 - __builtin_clz(set));
}

typedef Found (*Loop)(int model, Table table, uint32_t set, Found found);

ALWAYS_INLINE Split search(Loop loop, int model, Table table, uint32_t set, uint32_t size)
{
    const uint64_t fixed = charge_for_result(model, size);
    const Split none = {NO_PLAN, 0};

    if (fixed > table.limit)
        return none;
    const Found found = loop(model, table, set, (Found){table.limit - fixed + 1, 0});
    if (found.left == 0)
        return none;
    return (Split){found.best + fixed, found.left};
}

// ---- The forms.

// The paper's nested ifs: each asks for more of the split only while it can still be the best.
ALWAYS_INLINE Found nested_until(uint32_t end, int model, Table table, uint32_t set, Found found)
{
    for (uint32_t left = first_left(set); left != end; left = next_left(set, left)) {
        const uint32_t right = set ^ left;
        if (table.costs[left] < found.best) {
            if (table.costs[right] < found.best) {
                uint64_t total = table.costs[left] + table.costs[right];
                if (total < found.best) {
                    total += charge_for_split(model, table.sizes[left], table.sizes[right]);
                    if (total < found.best)
                        found = (Found){total, left};
                }
            }
        }
    }
    return found;
}

// All splits: what the paper does.
ALWAYS_INLINE Found nested(int model, Table table, uint32_t set, Found found)
{
    return nested_until(set, model, table, set, found);
}

ALWAYS_INLINE Found half_nested(int model, Table table, uint32_t set, Found found)
{
    return nested_until(highest_weight(set), model, table, set, found);
}

ALWAYS_INLINE uint64_t held(uint64_t cost)
{
    return cost < HELD_COST ? cost : HELD_COST;
}

// No branch but the loop's own: costs are held, so that any sum can be made, and every split is charged.
ALWAYS_INLINE Found half_clamped(int model, Table table, uint32_t set, Found found)
{
    const uint32_t end = highest_weight(set);
    for (uint32_t left = first_left(set); left != end; left = next_left(set, left)) {
        const uint32_t right = set ^ left;
        const uint64_t total = held(table.costs[left]) + held(table.costs[right])
                               + charge_for_split(model, table.sizes[left], table.sizes[right]);
        const bool better = total < found.best;
        found.best = better ? total : found.best;
        found.left = better ? left : found.left;
    }
    return found;
}

// One comparison for most splits: the held costs' sum first, and the charge only where that is below the best.
ALWAYS_INLINE Found half_pruned(int model, Table table, uint32_t set, Found found)
{
    const uint32_t end = highest_weight(set);
    for (uint32_t left = first_left(set); left != end; left = next_left(set, left)) {
        const uint32_t right = set ^ left;
        uint64_t total = held(table.costs[left]) + held(table.costs[right]);
        if (total < found.best) {
            total += charge_for_split(model, table.sizes[left], table.sizes[right]);
            if (total < found.best)
                found = (Found){total, left};
        }
    }
    return found;
}

ALWAYS_INLINE uint64_t saturated_sum(uint64_t a, uint64_t b)
{
    const uint64_t sum = a + b;
    return sum < a ? UINT64_MAX : sum;
}

// The same with one hold for the sum in place of one for each cost. A sum below the best is below 2^60 + 1, so the charge can be added.
ALWAYS_INLINE Found half_saturated(int model, Table table, uint32_t set, Found found)
{
    const uint32_t end = highest_weight(set);
    for (uint32_t left = first_left(set); left != end; left = next_left(set, left)) {
        const uint32_t right = set ^ left;
        uint64_t total = saturated_sum(table.costs[left], table.costs[right]);
        if (total < found.best) {
            total += charge_for_split(model, table.sizes[left], table.sizes[right]);
            if (total < found.best)
                found = (Found){total, left};
        }
    }
    return found;
}

// One split, as half_saturated tries it.
ALWAYS_INLINE Found tried(int model, Table table, Found found, uint32_t left, uint32_t right)
{
    uint64_t total = saturated_sum(table.costs[left], table.costs[right]);
    if (total >= found.best)
        return found;
    total += charge_for_split(model, table.sizes[left], table.sizes[right]);
    return total < found.best ? (Found){total, left} : found;
}

// Two splits a turn: a left part without the lowest relation is followed by the same with it, so that the step is taken once for both, in
// the rest of the set.
ALWAYS_INLINE Found half_paired(int model, Table table, uint32_t set, Found found)
{
    const uint32_t lowest = first_left(set);
    const uint32_t rest = set ^ lowest;
    const uint32_t end = highest_weight(set);

    found = tried(model, table, found, lowest, rest);
    for (uint32_t left = first_left(rest); left != end; left = next_left(rest, left)) {
        found = tried(model, table, found, left, set ^ left);
        found = tried(model, table, found, left ^ lowest, rest ^ left);
    }
    return found;
}

// One split, with a jump where the sum overflows in place of a hold.
ALWAYS_INLINE Found tried_unheld(int model, Table table, Found found, uint32_t left, uint32_t right)
{
    const uint64_t sum = table.costs[left] + table.costs[right];
    if (sum < table.costs[left])
        return found;
    if (sum < found.best) {
        const uint64_t total = sum + charge_for_split(model, table.sizes[left], table.sizes[right]);
        if (total < found.best)
            return (Found){total, left};
    }
    return found;
}

// The form that ours has: the step is taken on the set itself, from each left part to the next, two splits a turn. The splits before the
// middle are odd in number, so that only the second step of a turn can pass it: there the right part has the lesser number.
ALWAYS_INLINE Found half_stepped(int model, Table table, uint32_t set, Found found)
{
    uint32_t left = 0;
    for (;;) {
        left = next_left(set, left);
        found = tried_unheld(model, table, found, left, set - left);
        left = next_left(set, left);
        const uint32_t right = set - left;
        if (right < left)
            return found;
        found = tried_unheld(model, table, found, left, right);
    }
}

// ---- The table of forms. To add one: its loop above, then a line in each of the two lists below.

// A search for each model, so that the compiler sees the model as a constant.
#define SEARCHES(form)                                                                                                                  \
    static Split form##_0(Table table, uint32_t set, uint32_t size) { return search(form, 0, table, set, size); }                       \
    static Split form##_1(Table table, uint32_t set, uint32_t size) { return search(form, 1, table, set, size); }                       \
    static Split form##_2(Table table, uint32_t set, uint32_t size) { return search(form, 2, table, set, size); }

SEARCHES(nested)
SEARCHES(half_nested)
SEARCHES(half_clamped)
SEARCHES(half_pruned)
SEARCHES(half_saturated)
SEARCHES(half_paired)
SEARCHES(half_stepped)

typedef struct {
    const char *name;
    Search searches[3];
} Form;

#define FORM(form) {#form, {form##_0, form##_1, form##_2}}

static const Form FORMS[] = {
    FORM(nested),         FORM(half_nested), FORM(half_clamped), FORM(half_pruned),
    FORM(half_saturated), FORM(half_paired), FORM(half_stepped),
};

// ---- Sizes and the fill: the same for every form.

static bool is_single(uint32_t set)
{
    return (set & (set - 1)) == 0;
}

// The divisor of relations i < j, counted from 0.
static uint32_t divisor_between(const uint32_t *divisors, uint32_t i, uint32_t j)
{
    return divisors[j * (j - 1) / 2 + i];
}

// Held at 2^64-1, which is above every number that it divides: the quotient is then the same as by the true product.
static uint64_t product_of_divisors(const uint32_t *divisors, uint32_t lowest, uint32_t rest)
{
    uint64_t product = 1;
    for (uint32_t left_over = rest; left_over != 0; left_over &= left_over - 1) {
        const uint32_t divisor = divisor_between(divisors, lowest, (uint32_t)__builtin_ctz(left_over));
        if (__builtin_mul_overflow(product, divisor, &product))
            return UINT64_MAX;
    }
    return product;
}

static uint32_t size_of(const uint32_t *counts, const uint32_t *divisors, const uint32_t *sizes, uint32_t set)
{
    const uint32_t lowest = (uint32_t)__builtin_ctz(set);
    const uint32_t rest = set & (set - 1);
    const uint64_t rows = (uint64_t)sizes[rest] * counts[lowest];
    const uint64_t product = product_of_divisors(divisors, lowest, rest);
    const uint64_t quotient = rows / product + (rows % product != 0);
    return quotient < LARGEST_SIZE ? (uint32_t)quotient : LARGEST_SIZE;
}

uint32_t EXPORT(forms)(void)
{
    return sizeof FORMS / sizeof *FORMS;
}

const char *EXPORT(form_name)(uint32_t form)
{
    return FORMS[form].name;
}

// A fill of figures that are sound, on columns that are long enough.
void EXPORT(form_fill)(uint32_t form, uint32_t n, const uint32_t *counts, const uint32_t *divisors, uint32_t model, uint64_t limit,
                       uint32_t *sizes, uint64_t *costs, uint16_t *lefts)
{
    const Search best_split = FORMS[form].searches[model];
    const Table table = {sizes, costs, limit};

    sizes[0] = 0, costs[0] = 0, lefts[0] = 0;
    for (uint32_t set = 1; set < UINT32_C(1) << n; set++) {
        Split split = {0, 0};
        if (is_single(set)) {
            sizes[set] = counts[__builtin_ctz(set)];
        } else {
            sizes[set] = size_of(counts, divisors, sizes, set);
            split = best_split(table, set, sizes[set]);
        }
        costs[set] = split.cost;
        lefts[set] = (uint16_t)split.left;
    }
}
