/* What the C tests share: numbers compared and counted, the layout of structs, and layers compared. Stands behind brinepost.h. */
#include <stdio.h>
#include <string.h>

static int checks, failures;

static void same_at(const char *file, int line, const char *what, long long expected, long long given)
{
    checks++;
    if (expected == given)
        return;
    failures++;
    printf("%s:%d: %s: expected %lld, given %lld\n", file, line, what, expected, given);
}
#define same(what, line, expected, given) same_at(__FILE__, line, what, expected, given)
#define SAME(expected, given) same(#given, __LINE__, (long long)(expected), (long long)(given))
#define COUNT(list) (sizeof(list) / sizeof((list)[0]))

#define AT(type, field, place) _Static_assert(offsetof(type, field) == (place), #type "." #field)
#define SIZE(type, bytes) _Static_assert(sizeof(type) == (bytes), #type)

/* Whether two layers differ in a field; what stands between the fields no promise speaks of. */
static inline int layers_differ(bp_layer a, bp_layer b)
{
    return a.extent != b.extent || a.is_open != b.is_open || a.is_strict != b.is_strict || a.name != b.name ||
           memcmp(&a.used, &b.used, sizeof a.used) != 0 || memcmp(&a.since, &b.since, sizeof a.since) != 0;
}

static int ended(const char *what)
{
    printf("%s from C: %d checks, %d failed\n", what, checks, failures);
    return failures != 0;
}
