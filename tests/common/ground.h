/*
 * A smooth ground for realistic inputs: a few hills and hollows on a slope, in whole micrometres. It uses + - * / alone,
 * so that it is the same on every machine.
 */
#ifndef GROUND_H
#define GROUND_H

#include <stdint.h>

/* The ground's height at (u, v), each from 0 to 1: within 100 metres of 0. */
static inline int64_t ground(double u, double v)
{
    static const double hill[5][4] = {          /* its place, its height in metres, how sharply it falls off */
        { 0.2, 0.3, 31.0, 40.0 }, { 0.7, 0.8, -22.0, 25.0 }, { 0.6, 0.2, 12.0, 90.0 },
        { 0.1, 0.9, -7.0, 300.0 }, { 0.9, 0.5, 18.0, 15.0 },
    };
    double metres = 4.0 * u - 9.0 * v;
    int i;

    for (i = 0; i < 5; i++) {
        const double du = u - hill[i][0], dv = v - hill[i][1];
        metres += hill[i][2] / (1.0 + hill[i][3] * (du * du + dv * dv));
    }
    return (int64_t)(metres * 1e6);
}

#endif
