#include "orbit.h"

#include <math.h>

/* Kepler's third law. */
double orbit_period(double distance)
{
    return sqrt(distance * distance * distance);
}
