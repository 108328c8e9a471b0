/* The sizes and places that kelfhoam.h tells, as the library and kelfhoam.rs have them; capi/try compiles this file and does not run it. */
#include "kelfhoam.h"

#define PLACE(type, field, at) _Static_assert(offsetof(type, field) == (at), #type "." #field)

_Static_assert(sizeof(kelfhoam_mark) == 24, "kelfhoam_mark");
_Static_assert(sizeof(kelfhoam_node) == 72, "kelfhoam_node");
_Static_assert(sizeof(kelfhoam_anchor) == 72, "kelfhoam_anchor");
_Static_assert(sizeof(kelfhoam_counted) == 12, "kelfhoam_counted");
_Static_assert(sizeof(kelfhoam_step) == 8, "kelfhoam_step");
_Static_assert(sizeof(kelfhoam_loaded) == 160, "kelfhoam_loaded");
_Static_assert(sizeof(kelfhoam_called) == 40, "kelfhoam_called");
_Static_assert(sizeof(kelfhoam_redumped) == 240, "kelfhoam_redumped");
PLACE(kelfhoam_node, tag_start, 8);
PLACE(kelfhoam_node, start, 24);
PLACE(kelfhoam_node, end, 48);
PLACE(kelfhoam_anchor, size, 64);
PLACE(kelfhoam_loaded, start, 48);
PLACE(kelfhoam_loaded, at, 96);
PLACE(kelfhoam_loaded, fault, 144);
PLACE(kelfhoam_redumped, load, 40);
PLACE(kelfhoam_redumped, write, 200);
