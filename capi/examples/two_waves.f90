! two_waves.f90: a pool of two nodes from Fortran, with iso_c_binding: one message, then two waves that detect the end.
module detector
  use iso_c_binding
  implicit none

  type, bind(c) :: gerfmuod_core
    integer(c_int64_t) :: words(64)
  end type

  type, bind(c) :: gerfmuod_step_result
    integer(c_int16_t) :: refused, event
    integer(c_int32_t) :: number, sent, received
  end type

  integer(c_int32_t), parameter :: gerfmuod_first_generation = 1
  integer(c_int16_t), parameter :: gerfmuod_event_not_ended = 2, gerfmuod_event_ended = 3, gerfmuod_event_quiet = 5

  interface
    function gerfmuod_core_open(core, nodes) bind(c) result(refused)
      import
      type(gerfmuod_core) :: core
      integer(c_int32_t), value :: nodes
      integer(c_int32_t) :: refused
    end function
    function gerfmuod_core_close(core) bind(c) result(refused)
      import
      type(gerfmuod_core) :: core
      integer(c_int32_t) :: refused
    end function
    function gerfmuod_core_ready(core, node) bind(c) result(step)
      import
      type(gerfmuod_core) :: core
      integer(c_int32_t), value :: node
      type(gerfmuod_step_result) :: step
    end function
    function gerfmuod_core_send(core, from, to, message, generation) bind(c) result(step)
      import
      type(gerfmuod_core) :: core
      integer(c_int32_t), value :: from, to, message, generation
      type(gerfmuod_step_result) :: step
    end function
    function gerfmuod_core_receive(core, node, message, generation) bind(c) result(step)
      import
      type(gerfmuod_core) :: core
      integer(c_int32_t), value :: node, message, generation
      type(gerfmuod_step_result) :: step
    end function
    function gerfmuod_core_message_end(core, node, message, generation) bind(c) result(step)
      import
      type(gerfmuod_core) :: core
      integer(c_int32_t), value :: node, message, generation
      type(gerfmuod_step_result) :: step
    end function
    function gerfmuod_core_start(core) bind(c) result(step)
      import
      type(gerfmuod_core) :: core
      type(gerfmuod_step_result) :: step
    end function
    function gerfmuod_core_down(core, node) bind(c) result(step)
      import
      type(gerfmuod_core) :: core
      integer(c_int32_t), value :: node
      type(gerfmuod_step_result) :: step
    end function
    function gerfmuod_core_give(core, node) bind(c) result(step)
      import
      type(gerfmuod_core) :: core
      integer(c_int32_t), value :: node
      type(gerfmuod_step_result) :: step
    end function
    function gerfmuod_core_up(core, node) bind(c) result(step)
      import
      type(gerfmuod_core) :: core
      integer(c_int32_t), value :: node
      type(gerfmuod_step_result) :: step
    end function
    function gerfmuod_core_judge(core) bind(c) result(step)
      import
      type(gerfmuod_core) :: core
      type(gerfmuod_step_result) :: step
    end function
  end interface
contains
  ! The step must not be refused. Returns what happened with it.
  function taken(step) result(event)
    type(gerfmuod_step_result), intent(in) :: step
    integer(c_int16_t) :: event
    if (step%refused /= 0) then
      print '(a, i0)', 'refused ', step%refused
      stop 1
    end if
    event = step%event
  end function
end module

program two_waves
  use detector
  implicit none
  integer(c_int32_t), parameter :: g = gerfmuod_first_generation
  type(gerfmuod_core) :: core
  type(gerfmuod_step_result) :: sums, judged
  integer(c_int16_t) :: event
  integer :: wave
  if (gerfmuod_core_open(core, 2) /= 0) stop 1
  event = taken(gerfmuod_core_send(core, 0, 1, 5, g))
  event = taken(gerfmuod_core_receive(core, 1, 5, g))
  event = taken(gerfmuod_core_message_end(core, 1, 5, g))
  event = taken(gerfmuod_core_ready(core, 0))
  if (taken(gerfmuod_core_ready(core, 1)) /= gerfmuod_event_quiet) stop 1
  do wave = 1, 2
    event = taken(gerfmuod_core_start(core))
    event = taken(gerfmuod_core_down(core, 1))
    event = taken(gerfmuod_core_give(core, 1))
    event = taken(gerfmuod_core_up(core, 1))
    sums = gerfmuod_core_give(core, 0)
    if (sums%refused /= 0 .or. sums%sent /= 1 .or. sums%received /= 1) stop 1
    judged = gerfmuod_core_judge(core)
    if (wave == 1 .and. judged%event /= gerfmuod_event_not_ended) stop 1
  end do
  if (judged%event /= gerfmuod_event_ended .or. judged%number /= 1) stop 1
  print '(a, i0)', 'ended with wave ', judged%number
  if (gerfmuod_core_close(core) /= 0) stop 1
end program
