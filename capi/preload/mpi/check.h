/* check.h: the state, records and calls that the files of the MPI checker share.
 *
 * Before each message of the program goes a notice over a communicator of this library. The proved detector counts notices.
 * A rank is idle while it is in a blocking call that no notice that has come can end. If the detector returns ENDED, all
 * ranks are idle and no notice is in flight: all ranks are in MPI_Finalize, or they are deadlocked. */
#ifndef CHECK_H
#define CHECK_H
#include <mpi.h>
#include <stddef.h>
#include <stdint.h>

enum notice_kind {
    NOTICE_MESSAGE,   /* a message follows */
    NOTICE_WITHDRAWN, /* a message was cancelled */
    NOTICE_ARRIVED,   /* the sender has come to a collective call */
    NOTICE_MATCHED,   /* to a synchronous sender: a receive is posted that may take the message */
    NOTICE_UNMATCHED, /* to a synchronous sender: no such receive is posted any more */
    NOTICE_PARTITIONS /* all partitions of a round are ready */
};

struct notice {
    uint64_t communicator; /* its id */
    uint64_t place;        /* where the program sends: an address in the sender */
    int64_t bytes;
    int32_t kind, from, tag; /* from: a rank of the communicator */
    uint32_t number;         /* of a collective call, a synchronous send, or a pair of partitioned requests; else 0 */
    int32_t call;            /* which collective call it is, with its root */
    int32_t unused;
};

/* A message that was announced and not received. */
struct message {
    struct notice notice;
    int source; /* its rank in MPI_COMM_WORLD */
    int is_matched;
    struct message *next;
};

/* A message that was received before its notice came. */
struct debt {
    int tag;
    struct debt *next;
};

/* What came from one rank of a communicator. */
struct peer {
    struct message *first, *last;
    struct debt *debts;
    uint32_t arrived; /* the newest collective call that it announced */
    int call;
};

enum { RECENT_CALLS = 32 };

/* A communicator. Notices may come before it exists here, so it is found by its id, which is the same at all its ranks. */
struct comm {
    uint64_t id;
    MPI_Comm handle; /* MPI_COMM_NULL before it was created here, and after it was freed */
    int size, rank, *world;
    int references;       /* requests, and the handle */
    uint32_t collectives; /* calls so far */
    int calls[RECENT_CALLS], is_mismatch_printed;
    const void *places[RECENT_CALLS];
    struct peer *peers;
    int peer_count;
    int synchronous;                  /* messages here whose senders wait for a match */
    struct request *posted, *newest;  /* active receives, in order */
    struct comm *next;
};

/* The ranks that must come to a collective call before it can end here: all others if count is -1. */
struct need {
    struct comm *comm;
    uint32_t number;
    int count, one, *ranks; /* ranks is NULL if `one` is the only one */
};

enum request_kind {
    REQUEST_RECEIVE, REQUEST_SEND, REQUEST_SYNCHRONOUS, REQUEST_COLLECTIVE, REQUEST_PARTITIONED_SEND, REQUEST_PARTITIONED_RECEIVE
};

struct request {
    MPI_Request handle;
    enum request_kind kind;
    struct comm *comm;
    const char *call;
    const void *place;
    int peer, tag;
    int64_t bytes;
    uint32_t number;      /* of a synchronous send, or of a pair of partitioned requests */
    int partitions, left; /* all, and those that are not ready */
    uint32_t round;       /* how often a partitioned receive was started */
    int is_persistent, is_active, is_cancelled, is_matched, is_claimed;
    int is_received; /* a receive that has its message, though the program has not completed it */
    struct need need;
    MPI_Comm *duplicate; /* of MPI_Comm_idup */
    uint64_t duplicate_id;
    struct request *chain;           /* in the table */
    struct request *later, *earlier; /* of the posted receives, or of the synchronous sends */
};

enum wait_kind { WAIT_ALL, WAIT_ANY, WAIT_PROBE, WAIT_MEETING, WAIT_FINALIZE, WAIT_EXIT };

/* The blocking call that a rank is in. */
struct wait {
    enum wait_kind kind;
    const char *call;
    const void *place;
    int count;
    struct request **requests; /* NULL: one that this library does not know, which may always end */
    int deciding;              /* the request that decided last whether the call can end: most often it does so again */
    struct comm *comm;         /* of a probe */
    int from, tag;
    const struct need *need; /* of a collective call: without these ranks it cannot end, in any MPI */
    int can_end, is_judged;
    unsigned rounds;
};

struct checker {
    int is_on;
    int is_blind; /* something was not seen: this rank is never idle again, and no verdict is printed */
    int is_sync, is_strict, has_report, lost_status;
    int is_loose; /* after UNSAFE: a collective call waits only for the ranks whose data it needs */
    int is_crowded; /* this computer has more ranks than processors: a call that waits naps early */
    const char *json_path;
    int64_t sync_bytes; /* standard sends of at least these bytes wait for their receives */
    int me, all;        /* in MPI_COMM_WORLD */
    MPI_Comm own;    /* notices and control messages */
    MPI_Comm report; /* what is printed after ENDED */
    MPI_Comm closing;
    uint64_t debts;
    uint64_t notices, controls, unseen;
    double begin;
};
extern struct checker checker;

/* memory.c */
void *allocate(size_t bytes);
void *reallocate(void *old, size_t bytes);

/* places.c */
enum { PLACE_SIZE = 200 };
const void *caller_of(const void *address);
void place_text(const void *address, char *room, size_t size);
#define CALLER caller_of(__builtin_return_address(0))

/* fortran.c */
void fortran_hook(void);
int fortran_is_binding(const void *address);

/* detector.c */
void detector_open(void);
void detector_close(void);
void detector_send(int world, const struct notice *notice);
int detector_poll(void);
void detector_glance(void);
void detector_rest(struct wait *wait);
void detector_resume(void);
void detector_reopen(void);
uint64_t detector_waves(void);
void await(MPI_Request *request);
void give_up(const char *reason);
double seconds(void);

/* verdict.c */
enum { DEADLOCK_STATUS = 86 };
void end_job(int status) __attribute__((noreturn));
void conclude(const struct wait *wait);
int is_over(void);

/* notices.c */
struct comm *comm_by_id(uint64_t id);
struct peer *comm_peer(struct comm *comm, int rank);
void comm_release(struct comm *comm);
struct comm *comm_each(struct comm *after);
void notice_send(struct comm *comm, int to, struct notice notice);
void notice_take(const struct notice *notice, int source);
void announce_message(struct comm *comm, int to, int tag, int64_t bytes, const void *place, uint32_t number);
void consume(struct comm *comm, int from, int tag);
void notices_filter(int (*is_kept)(struct comm *comm, struct peer *peer, struct message *message));

/* synchronous.c */
void synchronous_begin(struct request *request);
void synchronous_end(struct request *request);
void synchronous_matched(uint32_t number, int is_matched);
void synchronous_tell(struct comm *comm, const struct notice *notice, int source, int is_matched);
void synchronous_settle(struct comm *comm);
int is_taken(const struct comm *comm, const struct peer *peer, const struct message *message);

/* matching.c */
void posted_add(struct request *request);
void posted_remove(struct request *request);
int matches(int from, int tag, const struct notice *notice);
int can_end(struct wait *wait);
int has_arrived(const struct need *need, int rank);
int meeting_can_end(const struct need *need);
struct need meeting_need(const struct need *need);

/* requests.c */
struct request *request_new(enum request_kind kind, struct comm *comm, const char *call, const void *place);
void request_keep(struct request *request, MPI_Request handle);
struct request *request_find(MPI_Request handle);
void request_start(struct request *request);
void request_stop(struct request *request);
void request_complete(struct request *request, const MPI_Status *status);
void request_drop(struct request *request);
void request_free_later(MPI_Request handle, struct request *request);
void requests_freed_poll(void);
void wildcards_poll(void);
int request_wait(struct request *request, const char *call, const void *place, MPI_Request *handle, MPI_Status *status);

/* communicators.c */
void comm_open(void);
struct comm *comm_of(MPI_Comm handle);
void comm_track(MPI_Comm handle);
void comm_track_as(MPI_Comm handle, uint64_t id);
const char *comm_name(const struct comm *comm, char *room, size_t size);

/* partitioned.c */
void partitions_announced(struct comm *comm, const struct notice *notice);
int partitions_can_end(const struct request *request);

/* meeting.c: collective calls */
struct need need_all(int has_data);
struct need need_one(struct comm *comm, int rank, int has_data);
struct need need_none(void);
struct need need_below(struct comm *comm, int has_data);
struct need need_counts(struct comm *comm, const int *counts, const MPI_Datatype *types, int has_one_type);
struct need need_ranks(int count, int *ranks);
void meeting_begin(struct comm *comm, struct need *need, int call, int root, const void *place);
void meeting_wait(struct need *need, const char *name, const void *place);
int meeting_track(int result, struct need *need, const char *name, const void *place, MPI_Request *handle);
void meeting_mismatch(struct comm *comm, uint32_t number, int from, int call);

/* lost.c */
void lost_verify(void);

/* report.c */
void report_deadlock(const struct wait *wait, int is_unsafe);
int report_lost(void);
#endif
