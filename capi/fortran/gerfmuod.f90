! gerfmuod.f90: task graphs from Fortran, over gerfmuod/team.h; one process's part of the detector for distributed programs, over
! gerfmuod/process.h; and of a core, over gerfmuod/core.h, the call that lists what is left. These headers describe each call and its
! refusals. The other calls on a core have interfaces in capi/examples/two_waves.f90.
!
! Tasks and classes are counted from 0, as in C. Compile this file with your program and link with -lgerfmuod -pthread.
module gerfmuod
  use, intrinsic :: iso_c_binding
  implicit none
  public

  ! no task, and the inputs of a task that has none
  integer(c_int32_t), parameter :: gerfmuod_graph_none = -1_c_int32_t
  integer(c_int32_t), parameter :: gerfmuod_no_inputs(0) = [integer(c_int32_t) ::]
  ! no limit of time
  integer(c_int32_t), parameter :: gerfmuod_team_no_limit = -1_c_int32_t
  ! what a turn returned in next
  integer(c_int32_t), parameter :: gerfmuod_graph_run = 1, gerfmuod_graph_over = 4
  ! refusals; gerfmuod_refusal_text returns texts for them
  integer(c_int32_t), parameter :: gerfmuod_ok = 0, gerfmuod_refused_no_node = 1, gerfmuod_refused_no_task = 4
  integer(c_int32_t), parameter :: gerfmuod_refused_wrong_life = 5
  integer(c_int32_t), parameter :: gerfmuod_refused_ended = 15, gerfmuod_refused_history_full = 16
  integer(c_int32_t), parameter :: gerfmuod_refused_no_memory = 17, gerfmuod_refused_bad_spec = 26
  integer(c_int32_t), parameter :: gerfmuod_refused_no_thread = 64, gerfmuod_refused_not_started = 65
  integer(c_int32_t), parameter :: gerfmuod_refused_stopped = 66, gerfmuod_refused_running = 67
  integer(c_int32_t), parameter :: gerfmuod_refused_not_written = 68
  integer(c_int32_t), parameter :: gerfmuod_refused_different = 69
  integer(c_int32_t), parameter :: gerfmuod_refused_no_work = 101, gerfmuod_refused_count_full = 102
  integer(c_int32_t), parameter :: gerfmuod_refused_not_due = 103, gerfmuod_refused_not_yet = 104, gerfmuod_refused_late = 105
  integer(c_int32_t), parameter :: gerfmuod_refused_not_ended = 106, gerfmuod_refused_not_open = 107
  integer(c_int32_t), parameter :: gerfmuod_refused_no_process = 108, gerfmuod_refused_malformed = 109
  integer(c_int32_t), parameter :: gerfmuod_refused_miscounted = 110, gerfmuod_refused_mismatched = 111
  ! what gerfmuod_process_next returns, if it is not refused
  integer(c_int32_t), parameter :: gerfmuod_process_nothing = 0, gerfmuod_process_send = 1
  integer(c_int32_t), parameter :: gerfmuod_process_again = 2, gerfmuod_process_ended = 3

  ! what a task does with a piece of data
  integer(c_int32_t), parameter :: gerfmuod_read = 1, gerfmuod_write = 2, gerfmuod_update = 3

  type, bind(c) :: gerfmuod_access
    integer(c_int32_t) :: handle, mode
  end type

  ! One process of a distributed program; the library alone writes it. Its transport carries control messages as bytes.
  type, bind(c) :: gerfmuod_process
    integer(c_int64_t) :: mark = 0, epoch = 0
    integer(c_int32_t) :: number = 0, processes = 0
    integer(c_int64_t) :: pending = 0, sent = 0, received = 0, wave = 0
    integer(c_int64_t) :: taken_sent = 0, taken_received = 0, last_received = 0
    integer(c_int8_t) :: flags(16) = 0
  end type

  type, bind(c) :: gerfmuod_control_message
    integer(c_int64_t) :: epoch, from, to, wave
    integer(c_int32_t) :: token, processes
    integer(c_int64_t) :: sent, received
  end type

  ! A core, and a task of it that is not done, with why: no task of the range is left, or it waits for `missing` inputs, or it is
  ! ready, or it runs.
  integer(c_int16_t), parameter :: gerfmuod_left_none = 0_c_int16_t, gerfmuod_left_waiting = 1_c_int16_t
  integer(c_int16_t), parameter :: gerfmuod_left_ready = 2_c_int16_t, gerfmuod_left_running = 3_c_int16_t

  type, bind(c) :: gerfmuod_core
    integer(c_int64_t) :: words(64) = 0
  end type

  type, bind(c) :: gerfmuod_left_task
    integer(c_int16_t) :: refused, state
    integer(c_int32_t) :: number, node, missing
  end type

  type, bind(c) :: gerfmuod_graph_result
    integer(c_int32_t) :: refused, next, number, signals
  end type

  abstract interface
    ! The body of all tasks: runs one of them. Returns 0 if the task is done; another value if it failed, and the team stops. It is
    ! recursive, as several threads run it at once: else a compiler may keep its arrays in one place.
    function gerfmuod_team_body(context, task) bind(c) result(failed)
      import :: c_ptr, c_int, c_int32_t
      type(c_ptr), value :: context
      integer(c_int32_t), value :: task
      integer(c_int) :: failed
    end function

    ! Stores what the body of a new task needs, before the task can run. It makes no call on the team.
    subroutine gerfmuod_team_attach(data, task) bind(c)
      import :: c_ptr, c_int32_t
      type(c_ptr), value :: data
      integer(c_int32_t), value :: task
    end subroutine
  end interface

  interface
    function gerfmuod_team_open(team) bind(c) result(refused)
      import :: c_ptr, c_int32_t
      type(c_ptr), intent(out) :: team
      integer(c_int32_t) :: refused
    end function

    ! The same, but the team keeps the events of each run for gerfmuod_team_trace.
    function gerfmuod_team_open_traced(team) bind(c) result(refused)
      import :: c_ptr, c_int32_t
      type(c_ptr), intent(out) :: team
      integer(c_int32_t) :: refused
    end function

    subroutine gerfmuod_team_close(team) bind(c)
      import :: c_ptr
      type(c_ptr), value :: team
    end subroutine

    function gerfmuod_team_task(team, class, inputs, count, number) bind(c) result(refused)
      import :: c_ptr, c_int32_t, c_size_t
      type(c_ptr), value :: team
      integer(c_int32_t), value :: class
      integer(c_int32_t), intent(in) :: inputs(*)
      integer(c_size_t), value :: count
      integer(c_int32_t), intent(out), optional :: number
      integer(c_int32_t) :: refused
    end function

    ! offsets has tasks + 1 elements: the inputs of task t are inputs(offsets(t + 1) + 1 : offsets(t + 2)). `at` is the first
    ! task that cannot be added, or 0.
    function gerfmuod_team_describe(team, tasks, classes, offsets, inputs, at) bind(c) result(refused)
      import :: c_ptr, c_int8_t, c_int32_t
      type(c_ptr), value :: team
      integer(c_int32_t), value :: tasks
      integer(c_int8_t), intent(in), optional :: classes(*)
      integer(c_int32_t), intent(in) :: offsets(*), inputs(*)
      integer(c_int32_t), intent(out), optional :: at
      integer(c_int32_t) :: refused
    end function

    ! One more task, before the start or in a run, which also waits for `outside` calls of gerfmuod_team_release. attach is
    ! c_funloc of a gerfmuod_team_attach, or c_null_funptr.
    function gerfmuod_team_spawn(team, class, inputs, count, outside, attach, data, number) bind(c) result(refused)
      import :: c_ptr, c_funptr, c_int32_t, c_size_t
      type(c_ptr), value :: team, data
      integer(c_int32_t), value :: class, outside
      integer(c_int32_t), intent(in) :: inputs(*)
      integer(c_size_t), value :: count
      type(c_funptr), value :: attach
      integer(c_int32_t), intent(out), optional :: number
      integer(c_int32_t) :: refused
    end function

    ! One more piece of data that tasks access.
    function gerfmuod_team_handle(team, handle) bind(c) result(refused)
      import :: c_ptr, c_int32_t
      type(c_ptr), value :: team
      integer(c_int32_t), intent(out) :: handle
      integer(c_int32_t) :: refused
    end function

    ! One more task, which waits for the earlier tasks that access the same data, if one of the two writes or updates it.
    function gerfmuod_team_task_on(team, class, accesses, count, outside, attach, data, number) bind(c) result(refused)
      import :: c_ptr, c_funptr, c_int32_t, c_size_t, gerfmuod_access
      type(c_ptr), value :: team, data
      integer(c_int32_t), value :: class, outside
      type(gerfmuod_access), intent(in) :: accesses(*)
      integer(c_size_t), value :: count
      type(c_funptr), value :: attach
      integer(c_int32_t), intent(out), optional :: number
      integer(c_int32_t) :: refused
    end function

    ! One more input from outside for a task: it does not run before gerfmuod_team_release was called once for each.
    function gerfmuod_team_outside(team, task) bind(c) result(refused)
      import :: c_ptr, c_int32_t
      type(c_ptr), value :: team
      integer(c_int32_t), value :: task
      integer(c_int32_t) :: refused
    end function

    ! One input from outside of a task is there. Any thread may call it.
    function gerfmuod_team_release(team, task) bind(c) result(refused)
      import :: c_ptr, c_int32_t
      type(c_ptr), value :: team
      integer(c_int32_t), value :: task
      integer(c_int32_t) :: refused
    end function

    ! body is c_funloc of a gerfmuod_team_body.
    function gerfmuod_team_run(team, threads, body, context) bind(c) result(refused)
      import :: c_ptr, c_funptr, c_int32_t
      type(c_ptr), value :: team, context
      integer(c_int32_t), value :: threads
      type(c_funptr), value :: body
      integer(c_int32_t) :: refused
    end function

    ! The same on `threads` other threads: it returns at once.
    function gerfmuod_team_run_async(team, threads, body, context) bind(c) result(refused)
      import :: c_ptr, c_funptr, c_int32_t
      type(c_ptr), value :: team, context
      integer(c_int32_t), value :: threads
      type(c_funptr), value :: body
      integer(c_int32_t) :: refused
    end function

    ! Waits for the end of that run. If the run goes on for `milliseconds`, it returns gerfmuod_refused_running, unless they
    ! are gerfmuod_team_no_limit.
    function gerfmuod_team_wait(team, milliseconds) bind(c) result(refused)
      import :: c_ptr, c_int32_t
      type(c_ptr), value :: team
      integer(c_int32_t), value :: milliseconds
      integer(c_int32_t) :: refused
    end function

    ! The number of tasks that are not done.
    function gerfmuod_team_left(team) bind(c) result(left)
      import :: c_ptr, c_int32_t
      type(c_ptr), value :: team
      integer(c_int32_t) :: left
    end function

    ! The same graph once more, after a run that ended.
    function gerfmuod_team_again(team) bind(c) result(refused)
      import :: c_ptr, c_int32_t
      type(c_ptr), value :: team
      integer(c_int32_t) :: refused
    end function

    ! The same, also after a run that was stopped or failed.
    function gerfmuod_team_reset(team) bind(c) result(refused)
      import :: c_ptr, c_int32_t
      type(c_ptr), value :: team
      integer(c_int32_t) :: refused
    end function

    ! An empty graph again, on the threads that are there; after any run, or before one.
    function gerfmuod_team_clear(team) bind(c) result(refused)
      import :: c_ptr, c_int32_t
      type(c_ptr), value :: team
      integer(c_int32_t) :: refused
    end function

    ! The fault that ended the team, or gerfmuod_ok; and the task that it is about, or gerfmuod_graph_none.
    function gerfmuod_team_fault(team) bind(c) result(refused)
      import :: c_ptr, c_int32_t
      type(c_ptr), value :: team
      integer(c_int32_t) :: refused
    end function

    function gerfmuod_team_failed(team) bind(c) result(task)
      import :: c_ptr, c_int32_t
      type(c_ptr), value :: team
      integer(c_int32_t) :: task
    end function

    function gerfmuod_team_start(team, threads) bind(c) result(refused)
      import :: c_ptr, c_int32_t
      type(c_ptr), value :: team
      integer(c_int32_t), value :: threads
      integer(c_int32_t) :: refused
    end function

    ! Reports that task `done` is done, or gerfmuod_graph_none, and returns the next one.
    function gerfmuod_team_turn(team, done) bind(c) result(answer)
      import :: c_ptr, c_int32_t, gerfmuod_graph_result
      type(c_ptr), value :: team
      integer(c_int32_t), value :: done
      type(gerfmuod_graph_result) :: answer
    end function

    ! Records each later run; each thread keeps its newest `slices` bodies and waits. Call it before the first task.
    function gerfmuod_team_record(team, slices) bind(c) result(refused)
      import :: c_ptr, c_int32_t
      type(c_ptr), value :: team
      integer(c_int32_t), value :: slices
      integer(c_int32_t) :: refused
    end function

    ! Writes the last run as trace events. file is a stream of C, as its fopen returns it; so is that of gerfmuod_team_summary.
    function gerfmuod_team_profile(team, file) bind(c) result(refused)
      import :: c_ptr, c_int32_t
      type(c_ptr), value :: team, file
      integer(c_int32_t) :: refused
    end function

    function gerfmuod_team_summary(team, file) bind(c) result(refused)
      import :: c_ptr, c_int32_t
      type(c_ptr), value :: team, file
      integer(c_int32_t) :: refused
    end function

    subroutine gerfmuod_team_stop(team, task) bind(c)
      import :: c_ptr, c_int32_t
      type(c_ptr), value :: team
      integer(c_int32_t), value :: task
    end subroutine

    ! Writes the events of the run, at most `length` bytes with a zero byte at the end. Returns the length of the whole text.
    function gerfmuod_team_trace(team, buffer, length) bind(c) result(written)
      import :: c_ptr, c_char, c_size_t
      type(c_ptr), value :: team
      character(kind=c_char), intent(out) :: buffer(*)
      integer(c_size_t), value :: length
      integer(c_size_t) :: written
    end function
  end interface

  interface
    ! The task with the lowest number from `from` on and below `end` that is not done.
    function gerfmuod_core_left(core, from, end) bind(c) result(left)
      import :: c_int32_t, gerfmuod_core, gerfmuod_left_task
      type(gerfmuod_core), intent(in) :: core
      integer(c_int32_t), value :: from, end
      type(gerfmuod_left_task) :: left
    end function
  end interface

  interface
    ! Processes are numbered from 0, as in C.
    function gerfmuod_process_init(process, number, processes) bind(c) result(refused)
      import :: c_int32_t, gerfmuod_process
      type(gerfmuod_process), intent(out) :: process
      integer(c_int32_t), value :: number, processes
      integer(c_int32_t) :: refused
    end function

    function gerfmuod_process_add_work(process) bind(c) result(refused)
      import :: c_int32_t, gerfmuod_process
      type(gerfmuod_process), intent(inout) :: process
      integer(c_int32_t) :: refused
    end function

    function gerfmuod_process_finish_work(process) bind(c) result(refused)
      import :: c_int32_t, gerfmuod_process
      type(gerfmuod_process), intent(inout) :: process
      integer(c_int32_t) :: refused
    end function

    function gerfmuod_process_count_sent(process) bind(c) result(refused)
      import :: c_int32_t, gerfmuod_process
      type(gerfmuod_process), intent(inout) :: process
      integer(c_int32_t) :: refused
    end function

    function gerfmuod_process_count_received(process, epoch) bind(c) result(refused)
      import :: c_int32_t, c_int64_t, gerfmuod_process
      type(gerfmuod_process), intent(inout) :: process
      integer(c_int64_t), value :: epoch
      integer(c_int32_t) :: refused
    end function

    function gerfmuod_process_take(process, message) bind(c) result(refused)
      import :: c_int32_t, gerfmuod_process, gerfmuod_control_message
      type(gerfmuod_process), intent(inout) :: process
      type(gerfmuod_control_message), intent(in) :: message
      integer(c_int32_t) :: refused
    end function

    ! Writes the message only if it returns gerfmuod_process_send.
    function gerfmuod_process_next(process, message) bind(c) result(next)
      import :: c_int32_t, gerfmuod_process, gerfmuod_control_message
      type(gerfmuod_process), intent(inout) :: process
      type(gerfmuod_control_message), intent(inout) :: message
      integer(c_int32_t) :: next
    end function

    function gerfmuod_process_reopen(process) bind(c) result(refused)
      import :: c_int32_t, gerfmuod_process
      type(gerfmuod_process), intent(inout) :: process
      integer(c_int32_t) :: refused
    end function

    function gerfmuod_process_is_open(process) bind(c) result(holds)
      import :: c_bool, gerfmuod_process
      type(gerfmuod_process), intent(in) :: process
      logical(c_bool) :: holds
    end function

    function gerfmuod_process_knows_end(process) bind(c) result(holds)
      import :: c_bool, gerfmuod_process
      type(gerfmuod_process), intent(in) :: process
      logical(c_bool) :: holds
    end function
  end interface

  interface
    function text_in_c(refused) bind(c, name='gerfmuod_refusal_text') result(text)
      import :: c_ptr, c_int32_t
      integer(c_int32_t), value :: refused
      type(c_ptr) :: text
    end function

    function process_text_in_c(process) bind(c, name='gerfmuod_process_text') result(text)
      import :: c_ptr, gerfmuod_process
      type(gerfmuod_process), intent(in) :: process
      type(c_ptr) :: text
    end function

    function length_in_c(text) bind(c, name='strlen') result(length)
      import :: c_ptr, c_size_t
      type(c_ptr), value :: text
      integer(c_size_t) :: length
    end function
  end interface
  private :: text_in_c, process_text_in_c, length_in_c, text_at

contains

  ! Returns the name of a refusal and a sentence that explains it, such as 'NoThread: a run needs a thread'.
  function gerfmuod_refusal_text(refused) result(text)
    integer(c_int32_t), intent(in) :: refused
    character(:), allocatable :: text
    text = text_at(text_in_c(refused))
  end function

  ! Returns a line about a process, for a program that hangs.
  function gerfmuod_process_text(process) result(text)
    type(gerfmuod_process), intent(in) :: process
    character(:), allocatable :: text
    text = text_at(process_text_in_c(process))
  end function

  function text_at(pointer) result(text)
    type(c_ptr), intent(in) :: pointer
    character(:), allocatable :: text
    character(kind=c_char), pointer :: letters(:)
    integer :: i
    call c_f_pointer(pointer, letters, [length_in_c(pointer)])
    allocate (character(size(letters)) :: text)
    do i = 1, size(letters)
      text(i:i) = letters(i)
    end do
  end function
end module
