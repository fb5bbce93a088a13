#ifndef ORBIT_H
#define ORBIT_H

#ifdef __cplusplus
extern "C" {
#endif

/* How many years a planet takes at a mean distance from the sun, in that of the earth. */
double orbit_period(double distance);

#ifdef __cplusplus
}
#endif

#endif
