/* Compiles where the structs of the header are laid out as tests/layout.def says: as C99, C11 and C++. */
#include "cogsplice.h"

#define HOLDS(name, condition) typedef char name[(condition) ? 1 : -1];
#define SIZE(kind, bytes) HOLDS(size_of_##kind, sizeof(struct cogsplice_##kind) == (bytes))
#define FIELD(kind, field, at) HOLDS(at_##kind##_##field, offsetof(struct cogsplice_##kind, field) == (at))

#include "layout.def"
