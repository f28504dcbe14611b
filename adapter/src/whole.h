// How the compiler lays out the way of a call, which goes through most sources (adapter/build has them optimized as one).
// WHOLE is a function that has all in it that it calls, save what is APART, which some calls come to, and SELDOM, which
// few do: a frame less each, and no second look at what is known.
#ifndef DILLBEAM_WHOLE_H
#define DILLBEAM_WHOLE_H

#define WHOLE __attribute__((flatten))
#define APART __attribute__((noinline))
#define SELDOM __attribute__((noinline, cold))

#endif
