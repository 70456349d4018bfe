! Plans a file with the installed library, and prints the letters of its plan; or what refuses it. Without a file the
! texts of all refusals and the version.
program plan_file
  use iso_c_binding, only: c_int64_t, c_int8_t, c_size_t
  use hpf_remap
  implicit none

  integer(c_int8_t), allocatable :: routine(:)
  integer(c_int8_t) :: plan(hpf_largest_plan)
  type(hpf_outcome) :: outcome
  integer :: at, unit, length, vertices, labels, bytes
  integer(c_int64_t) :: number
  character(200) :: name

  if (command_argument_count() == 0) then
    do number = 0, 255
      if (len(hpf_text(number)) > 0) print '(i0, 1x, a)', number, hpf_text(number)
    end do
    if (hpf_version() /= hpf_module_version) stop 1
    print '(i0)', hpf_version()
    stop
  end if

  call get_command_argument(1, name)
  open (newunit=unit, file=name, access='stream', form='unformatted', status='old', action='read')
  inquire (unit=unit, size=length)
  allocate (routine(length))
  read (unit) routine
  close (unit)

  ! In the three ways that there are, which give the same.
  outcome = hpf_plan(routine, size(routine, kind=c_size_t), plan, size(plan, kind=c_size_t))
  if (differs(hpf_plan(routine, size(routine), plan, size(plan)))) stop 3
  if (differs(hpf_plan(routine, plan))) stop 3
  if (outcome%number /= hpf_done) then
    print '(a)', hpf_text(outcome%number)
    stop
  end if

  vertices = word(5)
  labels = word(7)
  bytes = (int(outcome%first) - 8 - 4 * vertices) / labels
  print '(*(a1))', (achar(iand(int(plan(9 + 4 * vertices + bytes * at + 1)), 255)), at = 0, labels - 1)

contains

  pure logical function differs(other)
    type(hpf_outcome), intent(in) :: other
    differs = other%number /= outcome%number .or. other%first /= outcome%first .or. other%second /= outcome%second
  end function differs

  integer function word(from)
    integer, intent(in) :: from
    word = iand(int(plan(from)), 255) + 256 * iand(int(plan(from + 1)), 255)
  end function word
end program plan_file
