#include "kinds.h"

#include <stddef.h>

static const quantity pressure = {"pressure", "Pa", "pressure_Pa", 6};
static const quantity density = {"density", "kg/m³", "density_kg_m3", 11};
static const quantity energy = {"energy", "J/kg", "energy_J_kg", 3};
static const quantity temperature = {"temperature", "K", "temperature_K", 6};
static const quantity entropy = {"entropy", "J/(kg K)", "entropy_J_kg_K", 4};

/* Where a line of text names no kind, the first row that has its columns is taken. */
const kind_row kinds[KIND_COUNT] = {
    {1, 'T', &pressure, &density, &temperature, 6, NULL},
    {2, 'S', &energy, &density, &entropy, 4, NULL},
    {3, 'P', &energy, &density, &pressure, 0, "2.2.0"},
};

const quantity *const given[GIVEN_COUNT] = {&pressure, &energy, &density};

const kind_row *kind_of(uint64_t kind) {
    for (int i = 0; i < KIND_COUNT; i++)
        if (kinds[i].kind == kind)
            return &kinds[i];
    return NULL;
}
