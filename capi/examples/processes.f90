! processes.f90: termination detection from Fortran: processes that pass each other work, simulated in one program. Each message is
! counted at its sender and at its receiver; control messages wait in a queue, as a transport would carry them.
program processes
  use gerfmuod
  implicit none
  integer(c_int32_t), parameter :: n = 5
  type(gerfmuod_process) :: p(0:n - 1)
  type(gerfmuod_control_message) :: queue(1000), message
  integer :: first = 1, last = 0, hops, at, ended
  integer(c_int32_t) :: i, next

  do i = 0, n - 1
    call need(gerfmuod_process_init(p(i), i, n))
  end do
  do hops = 1, 12 ! a piece of work goes from process to process
    at = mod(hops - 1, n)
    call need(gerfmuod_process_count_sent(p(at)))
    call need(gerfmuod_process_finish_work(p(at)))
    at = mod(hops, n)
    call need(gerfmuod_process_count_received(p(at), p(at)%epoch))
    if (hops <= n - 1) call need(gerfmuod_process_finish_work(p(at))) ! of the two pieces that it has then
    if (detected() > 0) error stop 'early'
  end do
  call need(gerfmuod_process_finish_work(p(at)))
  ended = detected()
  if (ended /= n) error stop 'the end was not detected'
  do i = 0, n - 1
    if (.not. gerfmuod_process_knows_end(p(i))) error stop 'a process does not know the end'
    if (index(gerfmuod_process_text(p(i)), 'knows the end') == 0) error stop 'a text that is wrong'
  end do
  if (gerfmuod_process_finish_work(p(0)) /= gerfmuod_refused_no_work) error stop 'work without work'
  print '(i0, a, i0, a, i0, a)', ended, ' processes know the end, after ', p(0)%wave, ' waves and ', last, ' control messages'

contains

  subroutine need(refused)
    integer(c_int32_t), intent(in) :: refused
    if (refused /= gerfmuod_ok) error stop 'refused: '//gerfmuod_refusal_text(refused)
  end subroutine

  ! Lets each process do what it can, and delivers each control message. Returns how many processes know the end.
  integer function detected()
    logical :: is_more
    detected = 0
    do
      is_more = .false.
      do i = 0, n - 1
        next = gerfmuod_process_next(p(i), message)
        do while (next == gerfmuod_process_send)
          last = last + 1
          queue(last) = message
          is_more = .true.
          next = gerfmuod_process_next(p(i), message)
        end do
        is_more = is_more .or. next == gerfmuod_process_again
        if (next > 100) call need(next)
      end do
      do while (first <= last)
        call need(gerfmuod_process_take(p(queue(first)%to), queue(first)))
        first = first + 1
      end do
      if (.not. is_more) exit
    end do
    do i = 0, n - 1
      if (gerfmuod_process_next(p(i), message) == gerfmuod_process_ended) detected = detected + 1
    end do
  end function
end program
