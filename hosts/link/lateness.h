/* SPDX-License-Identifier: MIT OR Apache-2.0 */
/* How late packets were delivered: percentiles of ns, exact to 2 %. */
#ifndef LATENESS_H
#define LATENESS_H
#include <stdint.h>

void lateness_add(uint64_t ns);
/* Returns the smallest bound (ns) that at least `percent` % of all packets do not exceed, or 0 if there are none. */
uint64_t lateness_percentile(unsigned int percent);
uint64_t lateness_max(void);

#endif
