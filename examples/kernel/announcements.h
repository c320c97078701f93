/*
 * announcements.h: what is announced, in the order of the stamps. examples/executive/announcement.h has the columns.
 * Stamps and indexes are those of one long run. A late release of a later run is stamped LEAD slots after that has
 * begun, or later.
 */
#ifndef ANNOUNCEMENTS_H
#define ANNOUNCEMENTS_H
#include "../executive/announcement.h"

enum { FRAME = 60 }; /* so the first radio is refused: 8 doesn't divide 60 */

static const struct announcement announcements[] = {
    {0, 0, PFAIR_KIND_ARRIVE, "control", 1, 2, 0, 0, 0}, {1, 0, PFAIR_KIND_ARRIVE, "vision", 2, 3, 0, 0, 0},
    {2, 0, PFAIR_KIND_ARRIVE, "logger", 1, 5, 0, 0, 0},  {3, 0, PFAIR_KIND_ARRIVE, "radio", 2, 8, 1, 0, 0},
    {0, 1, PFAIR_KIND_ARRIVE, "radio", 1, 4, 1, 0, 0},   {2, 1, PFAIR_KIND_ARRIVE, "sonar", 5, 6, 0, 0, 0},
    {3, 2, PFAIR_KIND_ARRIVE, "audio", 3, 4, 1, 0, 0},   {1, 3, PFAIR_KIND_ARRIVE, "planner", 7, 12, 0, 0, 0},
    {1, 20, PFAIR_KIND_LATE, "control", 0, 0, 0, 15, 3}, {3, 30, PFAIR_KIND_LATE, "audio", 0, 0, 0, 24, 5},
    {0, 40, PFAIR_KIND_DEPART, "vision", 0, 0, 0, 0, 0}, {0, 50, PFAIR_KIND_ARRIVE, "vision", 3, 4, 0, 0, 0},
    {3, 60, PFAIR_KIND_ARRIVE, "burst", 3, 10, 0, 0, 0}, {2, 62, PFAIR_KIND_ARRIVE, "extra", 1, 2, 0, 0, 0},
    {2, 80, PFAIR_KIND_DEPART, "sonar", 0, 0, 0, 0, 0},  {2, 95, PFAIR_KIND_ARRIVE, "sonar", 1, 3, 0, 0, 0},
    {1, 120, PFAIR_KIND_DEPART, "burst", 0, 0, 0, 0, 0}, {0, 130, PFAIR_KIND_ARRIVE, "extra", 3, 10, 1, 0, 0},
    {0, 150, PFAIR_KIND_LATE, "vision", 0, 0, 0, 80, 2}, {3, 170, PFAIR_KIND_ARRIVE, "burst", 1, 2, 0, 0, 0},
    /* across the end of a run: a subtask of control is late, vision departs and is freed at 201, and logger at 400 */
    {1, 190, PFAIR_KIND_LATE, "control", 0, 0, 0, 100, 2}, {2, 198, PFAIR_KIND_DEPART, "vision", 0, 0, 0, 0, 0},
    {3, 200, PFAIR_KIND_ARRIVE, "vision", 1, 2, 0, 0, 0},  {3, 201, PFAIR_KIND_ARRIVE, "vision", 2, 3, 0, 0, 0},
    {0, 240, PFAIR_KIND_LATE, "audio", 0, 0, 0, 178, 4},   {1, 250, PFAIR_KIND_LATE, "control", 0, 0, 0, 125, 1},
    {1, 290, PFAIR_KIND_DEPART, "extra", 0, 0, 0, 0, 0},   {0, 310, PFAIR_KIND_ARRIVE, "burst", 1, 3, 1, 0, 0},
    {2, 398, PFAIR_KIND_DEPART, "logger", 0, 0, 0, 0, 0},  {2, 400, PFAIR_KIND_ARRIVE, "logger", 1, 6, 0, 0, 0},
    {0, 450, PFAIR_KIND_LATE, "vision", 0, 0, 0, 167, 3},  {3, 470, PFAIR_KIND_DEPART, "burst", 0, 0, 0, 0, 0},
    {2, 500, PFAIR_KIND_ARRIVE, "extra", 1, 4, 0, 0, 0},
};
enum { ANNOUNCEMENTS = sizeof announcements / sizeof announcements[0] };

#endif
