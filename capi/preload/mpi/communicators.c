/* communicators.c: the communicators that this library watches: those whose ranks are all in this MPI_COMM_WORLD and that are no
 * intercommunicators. */
#include "check.h"
#include <stdio.h>
#include <stdlib.h>

enum { ID_WORLD = 1, ID_SELF = 2, FIRST_ID = 16 };
static int key = MPI_KEYVAL_INVALID;
static MPI_Comm newest = MPI_COMM_NULL; /* the communicator of the newest call: most calls name the same again */
static struct comm *newest_comm;

/* MPI calls this when the program frees a communicator. */
static int freed(MPI_Comm handle, int keyval, void *value, void *state) {
    struct comm *comm = value;
    (void)handle, (void)keyval, (void)state;
    newest = MPI_COMM_NULL;
    comm->handle = MPI_COMM_NULL;
    comm_release(comm);
    return MPI_SUCCESS;
}

struct comm *comm_of(MPI_Comm handle) {
    struct comm *comm;
    int is_there = 0;
    if (!checker.is_on || handle == MPI_COMM_NULL) return NULL;
    if (handle == newest) return newest_comm;
    PMPI_Comm_get_attr(handle, key, &comm, &is_there);
    if (!is_there) return NULL;
    newest = handle;
    return newest_comm = comm;
}

/* Returns the ranks in MPI_COMM_WORLD, or NULL if one is not in it: one of a program that was spawned, for instance. */
static int *world_ranks(MPI_Comm handle) {
    int size, *from, *to, is_known = 1;
    MPI_Group group, world;
    PMPI_Comm_size(handle, &size);
    from = allocate(sizeof *from * (size_t)size);
    to = allocate(sizeof *to * (size_t)size);
    for (int n = 0; n < size; n++) from[n] = n;
    PMPI_Comm_group(handle, &group);
    PMPI_Comm_group(MPI_COMM_WORLD, &world);
    PMPI_Group_translate_ranks(group, size, from, world, to);
    PMPI_Group_free(&group);
    PMPI_Group_free(&world);
    for (int n = 0; n < size; n++) is_known = is_known && to[n] != MPI_UNDEFINED;
    free(from);
    if (is_known) return to;
    free(to);
    return NULL;
}

static void track(MPI_Comm handle, uint64_t id, int *world) {
    struct comm *comm = comm_by_id(id);
    comm->world = world;
    comm->handle = handle;
    comm->references++;
    PMPI_Comm_size(handle, &comm->size);
    PMPI_Comm_rank(handle, &comm->rank);
    PMPI_Comm_set_attr(handle, key, comm);
}

void comm_track_as(MPI_Comm handle, uint64_t id) {
    int *world = world_ranks(handle);
    if (world) track(handle, id, world);
}

/* The first rank of a new communicator chooses its id, which no other has: nobody uses the communicator yet. Ranks of another
 * MPI_COMM_WORLD may be without this library, which would not take the id. */
void comm_track(MPI_Comm handle) {
    static uint32_t created = FIRST_ID;
    uint64_t id = (uint64_t)checker.me << 32 | created;
    int is_inter, rank, *world;
    if (!checker.is_on || handle == MPI_COMM_NULL) return;
    PMPI_Comm_test_inter(handle, &is_inter);
    if (is_inter || !(world = world_ranks(handle))) return;
    PMPI_Comm_rank(handle, &rank);
    created += rank == 0;
    PMPI_Bcast(&id, 1, MPI_UINT64_T, 0, handle);
    track(handle, id, world);
}

void comm_open(void) {
    PMPI_Comm_create_keyval(MPI_COMM_NULL_COPY_FN, freed, &key, NULL);
    comm_track_as(MPI_COMM_WORLD, ID_WORLD);
    comm_track_as(MPI_COMM_SELF, ID_SELF);
}

const char *comm_name(const struct comm *comm, char *room, size_t size) {
    char name[MPI_MAX_OBJECT_NAME] = "";
    int length = 0;
    if (comm->handle != MPI_COMM_NULL) PMPI_Comm_get_name(comm->handle, name, &length);
    if (comm->id == ID_WORLD) snprintf(room, size, "MPI_COMM_WORLD");
    else if (length) snprintf(room, size, "%s", name);
    else if (comm->handle == MPI_COMM_NULL) snprintf(room, size, "a freed communicator");
    else snprintf(room, size, "a communicator of %d ranks", comm->size);
    return room;
}
