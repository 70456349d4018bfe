! Plans routine P and runs case 2 (docs/CASES.md). Prints the plan's labels, the copies and flags that the run leaves
! for each array, what each reference saw and gave, and how often each edge was passed. Then plans routine K, which has
! a call, and prints its labels.
program remap
  use iso_c_binding, only: c_int8_t, c_size_t
  use iso_fortran_env, only: error_unit
  use hpf_remap, only: hpf_outcome, hpf_plan, hpf_run, hpf_largest_plan
  implicit none

  ! P: a local array, 3 versions, initial 0; entry, define, remap 1, read, remap 2, remap 0, read, exit
  integer, parameter :: p_arrays(4) = [0, 3, 0, 0]
  integer, parameter :: p_actions(8) = [0, 32, 65, 16, 66, 64, 16, 0]
  integer, parameter :: p_edges(16) = [0, 1, 1, 2, 2, 3, 3, 4, 4, 5, 5, 6, 6, 2, 6, 7]
  integer, parameter :: steps(9) = [0, 1, 2, 3, 4, 5, 6, 2, 3]
  ! K: an inout and an in argument, 2 versions, initial 0; entry, call (C1 and 61: both in version 1), read both, exit
  integer, parameter :: k_arrays(8) = [3, 2, 0, 0, 1, 2, 0, 0]
  integer, parameter :: k_actions(8) = [0, 0, 193, 97, 16, 16, 0, 0]
  integer, parameter :: k_edges(8) = [0, 1, 1, 2, 2, 1, 2, 3]
  ! The path has nine vertices, two bytes each; hpf_run is given its length in bytes.
  integer(c_int8_t) :: routine(62), path(18), with_call(50)
  integer(c_int8_t) :: plan(hpf_largest_plan)
  integer(c_int8_t), allocatable :: report(:)
  type(hpf_outcome) :: outcome

  routine = file_of(p_arrays, p_actions, p_edges)
  path = words(steps)
  with_call = file_of(k_arrays, k_actions, k_edges)

  outcome = hpf_plan(routine, size(routine, kind=c_size_t), plan, size(plan, kind=c_size_t))
  call expect('hpf_plan', outcome, 0)
  call print_plan()

  ! An empty buffer is too short for any report: answer 2 gives the length needed.
  allocate (report(0))
  outcome = hpf_run(routine, size(routine, kind=c_size_t), path, size(path, kind=c_size_t), &
    report, size(report, kind=c_size_t))
  call expect('hpf_run', outcome, 2)
  deallocate (report)
  allocate (report(outcome%first))
  outcome = hpf_run(routine, size(routine, kind=c_size_t), path, size(path, kind=c_size_t), &
    report, size(report, kind=c_size_t))
  call expect('hpf_run', outcome, 0)
  call print_report()

  ! The call is three vertices of the plan: 1, 2 and 3.
  outcome = hpf_plan(with_call, size(with_call, kind=c_size_t), plan, size(plan, kind=c_size_t))
  call expect('hpf_plan', outcome, 0)
  call print_plan()

contains

  ! A routine's file: mark, edition and contents; four bytes an array; actions by vertex, then array; two ends an edge.
  pure function file_of(arrays, actions, edges) result(file)
    integer, intent(in) :: arrays(:), actions(:), edges(:)
    integer(c_int8_t) :: file(18 + size(arrays) + size(actions) + 2 * size(edges))
    integer :: count, vertices
    count = size(arrays) / 4
    vertices = size(actions) / count
    file = [stored(iachar(['H', 'P', 'F', 'R'])), &
      words([1, 18, count, 18 + 4 * count, vertices, 18 + 4 * count + size(actions), size(edges) / 2]), &
      stored(arrays), stored(actions), words(edges)]
  end function file_of

  ! 16-bit numbers, low byte first.
  pure function words(numbers) result(bytes)
    integer, intent(in) :: numbers(:)
    integer(c_int8_t) :: bytes(2 * size(numbers))
    bytes(1::2) = stored(mod(numbers, 256))
    bytes(2::2) = stored(numbers / 256)
  end function words

  ! A number from 0 to 255 as a byte.
  elemental integer(c_int8_t) function stored(number)
    integer, intent(in) :: number
    stored = int(merge(number, number - 256, number < 128), c_int8_t)
  end function stored

  subroutine expect(call_name, got, number)
    character(*), intent(in) :: call_name
    type(hpf_outcome), intent(in) :: got
    integer, intent(in) :: number
    if (got%number == number) return
    write (error_unit, '(2a, 3(1x, i0))') call_name, ':', got%number, got%first, got%second
    stop 1
  end subroutine expect

  ! A byte as a number from 0 to 255.
  pure integer function byte(bytes, at)
    integer(c_int8_t), intent(in) :: bytes(:)
    integer, intent(in) :: at
    byte = iand(int(bytes(at)), 255)
  end function byte

  pure integer function word(bytes, at)
    integer(c_int8_t), intent(in) :: bytes(:)
    integer, intent(in) :: at
    word = byte(bytes, at) + 256 * byte(bytes, at + 1)
  end function word

  ! A set of versions, 32 bits.
  pure integer function set(bytes, at)
    integer(c_int8_t), intent(in) :: bytes(:)
    integer, intent(in) :: at
    set = ior(word(bytes, at), ishft(word(bytes, at + 2), 16))
  end function set

  subroutine print_plan()
    integer :: v, k, at, vertices
    vertices = word(plan, 5)
    do v = 0, vertices - 1
      do k = word(plan, 9 + 4 * v), word(plan, 9 + 4 * v) + word(plan, 11 + 4 * v) - 1
        at = 9 + 4 * vertices + 12 * k
        if (achar(byte(plan, at + 1)) == 'N') then
          print '(a, i0, a, i0, a)', 'vertex ', v, ': array ', byte(plan, at), ' is not copied'
        else
          print '(a, i0, a, i0, a, i0, 3a, z8.8)', 'vertex ', v, ': array ', byte(plan, at), ' leaves as version ', &
            byte(plan, at + 2), ', use ', achar(byte(plan, at + 1)), ', keep ', set(plan, at + 8)
        end if
      end do
    end do
  end subroutine print_plan

  subroutine print_array(array, at)
    integer, intent(in) :: array, at
    character(6) :: noun
    character(4) :: current
    noun = merge('copy  ', 'copies', word(report, at) == 1)
    current = 'none'
    if (byte(report, at + 6) /= 255) write (current, '(i0)') byte(report, at + 6)
    print '(a, i0, a, i0, 3a, z8.8, 2a)', 'array ', array, ': ', word(report, at), ' ', trim(noun), ', live ', &
      set(report, at + 2), ', current ', trim(current)
  end subroutine print_array

  ! P has no calls: the edges of the expanded routine, of which each has a count behind the records, are the file's.
  subroutine print_report()
    integer :: array, arrays, at, counts, edge, edges, first_edge
    arrays = word(routine, 9)
    edges = word(routine, 17)
    counts = 1 + size(report) - 2 * edges
    first_edge = 1 + word(routine, 15)
    do array = 0, arrays - 1
      call print_array(array, 1 + 8 * array)
    end do
    do at = 1 + 8 * arrays, counts - 1, 10
      print '(5(a, i0))', 'step ', word(report, at), ': version ', byte(report, at + 3), &
        ', kind ', byte(report, at + 4), ', sees ', word(report, at + 6), ', gives ', word(report, at + 8)
    end do
    do edge = 0, edges - 1
      at = first_edge + 4 * edge
      print '(3(a, i0))', 'edge ', word(routine, at), '-', word(routine, at + 2), &
        ': passed ', word(report, counts + 2 * edge)
    end do
  end subroutine print_report
end program remap
