! Array remapping by copies, from Fortran. `include/hpf_remap.h` documents formats, answers and the rules for buffers.
! A byte is a c_int8_t, which has a sign: iand(int(b), 255) is its number from 0 to 255. All lengths are in bytes.
! So the action byte of a kill, hexadecimal 80, is -128; in a report its kind is 4.
module hpf_remap
  use iso_c_binding, only: c_int32_t, c_int64_t, c_int8_t, c_size_t
  implicit none
  private
  public :: hpf_outcome, hpf_plan, hpf_run, hpf_convert, hpf_rounds
  public :: hpf_text, hpf_version

  ! Sizes in bytes that always suffice, and the most vertices of a path.
  integer, parameter, public :: hpf_largest_directives = 9334
  integer, parameter, public :: hpf_largest_routine = 6194
  integer, parameter, public :: hpf_largest_plan = 25608
  integer, parameter, public :: hpf_largest_report = 330048
  integer, parameter, public :: hpf_largest_rounds = 12
  integer, parameter, public :: hpf_longest_path = 4096

  ! The version of this module. hpf_version() is that of the library that the program runs with; the library that
  ! `make install` installs has it.
  integer, parameter, public :: hpf_module_version = 800

  ! The numbers in the formats, bytes from 0 to 255: kinds of arrays; actions, to the last four of which the version is
  ! added; uses of labels; kinds of references in a report; no version; stamps.
  integer, parameter, public :: hpf_local = 0
  integer, parameter, public :: hpf_in = 1
  integer, parameter, public :: hpf_out = 2
  integer, parameter, public :: hpf_inout = 3

  integer, parameter, public :: hpf_nothing = 0
  integer, parameter, public :: hpf_read = 16
  integer, parameter, public :: hpf_define = 32
  integer, parameter, public :: hpf_modify = 48
  integer, parameter, public :: hpf_kill = 128
  integer, parameter, public :: hpf_remap_to = 64
  integer, parameter, public :: hpf_call_in = 96
  integer, parameter, public :: hpf_call_out = 160
  integer, parameter, public :: hpf_call_inout = 192

  integer, parameter, public :: hpf_letter_n = iachar('N')
  integer, parameter, public :: hpf_letter_d = iachar('D')
  integer, parameter, public :: hpf_letter_r = iachar('R')
  integer, parameter, public :: hpf_letter_w = iachar('W')

  integer, parameter, public :: hpf_kind_read = 1
  integer, parameter, public :: hpf_kind_define = 2
  integer, parameter, public :: hpf_kind_modify = 3
  integer, parameter, public :: hpf_kind_kill = 4

  integer, parameter, public :: hpf_none = 255
  integer, parameter, public :: hpf_never_given = 0
  integer, parameter, public :: hpf_callers_stamp = 65535

  ! Refusals. hpf_text(number) is what one says.
  integer, parameter, public :: hpf_done = 0
  integer, parameter, public :: hpf_short_buffer = 1
  integer, parameter, public :: hpf_short_report = 2
  integer, parameter, public :: hpf_wrong_mark = 10
  integer, parameter, public :: hpf_wrong_edition = 11
  integer, parameter, public :: hpf_wrong_count = 12
  integer, parameter, public :: hpf_wrong_offset = 13
  integer, parameter, public :: hpf_wrong_array = 14
  integer, parameter, public :: hpf_unknown_action = 15
  integer, parameter, public :: hpf_wrong_edge = 16
  integer, parameter, public :: hpf_version_too_large = 17
  integer, parameter, public :: hpf_action_at_end = 18
  integer, parameter, public :: hpf_mixed_actions = 19
  integer, parameter, public :: hpf_writes_in_argument = 20
  integer, parameter, public :: hpf_ambiguous = 21
  integer, parameter, public :: hpf_too_many_vertices = 22
  integer, parameter, public :: hpf_wrong_path_length = 30
  integer, parameter, public :: hpf_wrong_start = 31
  integer, parameter, public :: hpf_no_such_edge = 32
  integer, parameter, public :: hpf_malformed_directives = 40
  integer, parameter, public :: hpf_too_many_mappings = 41
  integer, parameter, public :: hpf_two_mappings = 42

  ! In C these are unsigned. No answer comes near 2**63, so that none is negative here.
  type, bind(c) :: hpf_outcome
    integer(c_int64_t) :: number, first, second
  end type hpf_outcome

  interface
    function hpf_plan(routine, routine_len, plan, plan_len) bind(c) result(outcome)
      import :: hpf_outcome, c_int8_t, c_size_t
      integer(c_int8_t), intent(in) :: routine(*)
      integer(c_size_t), value :: routine_len
      integer(c_int8_t), intent(inout) :: plan(*)
      integer(c_size_t), value :: plan_len
      type(hpf_outcome) :: outcome
    end function hpf_plan

    function hpf_run(routine, routine_len, path, path_len, report, report_len) bind(c) result(outcome)
      import :: hpf_outcome, c_int8_t, c_size_t
      integer(c_int8_t), intent(in) :: routine(*)
      integer(c_size_t), value :: routine_len
      integer(c_int8_t), intent(in) :: path(*)
      integer(c_size_t), value :: path_len ! in bytes: twice the number of vertices
      integer(c_int8_t), intent(inout) :: report(*)
      integer(c_size_t), value :: report_len
      type(hpf_outcome) :: outcome
    end function hpf_run

    function hpf_convert(directives, directives_len, routine, routine_len) bind(c) result(outcome)
      import :: hpf_outcome, c_int8_t, c_size_t
      integer(c_int8_t), intent(in) :: directives(*)
      integer(c_size_t), value :: directives_len
      integer(c_int8_t), intent(inout) :: routine(*)
      integer(c_size_t), value :: routine_len
      type(hpf_outcome) :: outcome
    end function hpf_convert

    function hpf_rounds(routine, routine_len, rounds, rounds_len) bind(c) result(outcome)
      import :: hpf_outcome, c_int8_t, c_size_t
      integer(c_int8_t), intent(in) :: routine(*)
      integer(c_size_t), value :: routine_len
      integer(c_int8_t), intent(inout) :: rounds(*)
      integer(c_size_t), value :: rounds_len
      type(hpf_outcome) :: outcome
    end function hpf_rounds

    ! Of the installed library.
    function hpf_version() bind(c) result(version)
      import :: c_int32_t
      integer(c_int32_t) :: version
    end function hpf_version
  end interface

  ! Each call also without lengths, which are then those of the arrays, and with lengths as `size` gives them.
  interface hpf_plan
    procedure :: hpf_plan, plan_whole, plan_sized
  end interface hpf_plan

  interface hpf_run
    procedure :: hpf_run, run_whole, run_sized
  end interface hpf_run

  interface hpf_convert
    procedure :: hpf_convert, convert_whole, convert_sized
  end interface hpf_convert

  interface hpf_rounds
    procedure :: hpf_rounds, rounds_whole, rounds_sized
  end interface hpf_rounds

contains

  function plan_whole(routine, plan) result(outcome)
    integer(c_int8_t), intent(in), contiguous :: routine(:)
    integer(c_int8_t), intent(inout), contiguous :: plan(:)
    type(hpf_outcome) :: outcome
    outcome = hpf_plan(routine, size(routine, kind=c_size_t), plan, size(plan, kind=c_size_t))
  end function plan_whole

  function plan_sized(routine, routine_len, plan, plan_len) result(outcome)
    integer(c_int8_t), intent(in) :: routine(*)
    integer(c_int32_t), intent(in) :: routine_len
    integer(c_int8_t), intent(inout) :: plan(*)
    integer(c_int32_t), intent(in) :: plan_len
    type(hpf_outcome) :: outcome
    outcome = hpf_plan(routine, int(routine_len, c_size_t), plan, int(plan_len, c_size_t))
  end function plan_sized

  function run_whole(routine, path, report) result(outcome)
    integer(c_int8_t), intent(in), contiguous :: routine(:)
    integer(c_int8_t), intent(in), contiguous :: path(:)
    integer(c_int8_t), intent(inout), contiguous :: report(:)
    type(hpf_outcome) :: outcome
    outcome = hpf_run(routine, size(routine, kind=c_size_t), path, size(path, kind=c_size_t), &
      report, size(report, kind=c_size_t))
  end function run_whole

  function run_sized(routine, routine_len, path, path_len, report, report_len) result(outcome)
    integer(c_int8_t), intent(in) :: routine(*)
    integer(c_int32_t), intent(in) :: routine_len
    integer(c_int8_t), intent(in) :: path(*)
    integer(c_int32_t), intent(in) :: path_len ! in bytes: twice the number of vertices
    integer(c_int8_t), intent(inout) :: report(*)
    integer(c_int32_t), intent(in) :: report_len
    type(hpf_outcome) :: outcome
    outcome = hpf_run(routine, int(routine_len, c_size_t), path, int(path_len, c_size_t), &
      report, int(report_len, c_size_t))
  end function run_sized

  function convert_whole(directives, routine) result(outcome)
    integer(c_int8_t), intent(in), contiguous :: directives(:)
    integer(c_int8_t), intent(inout), contiguous :: routine(:)
    type(hpf_outcome) :: outcome
    outcome = hpf_convert(directives, size(directives, kind=c_size_t), routine, size(routine, kind=c_size_t))
  end function convert_whole

  function convert_sized(directives, directives_len, routine, routine_len) result(outcome)
    integer(c_int8_t), intent(in) :: directives(*)
    integer(c_int32_t), intent(in) :: directives_len
    integer(c_int8_t), intent(inout) :: routine(*)
    integer(c_int32_t), intent(in) :: routine_len
    type(hpf_outcome) :: outcome
    outcome = hpf_convert(directives, int(directives_len, c_size_t), routine, int(routine_len, c_size_t))
  end function convert_sized

  function rounds_whole(routine, rounds) result(outcome)
    integer(c_int8_t), intent(in), contiguous :: routine(:)
    integer(c_int8_t), intent(inout), contiguous :: rounds(:)
    type(hpf_outcome) :: outcome
    outcome = hpf_rounds(routine, size(routine, kind=c_size_t), rounds, size(rounds, kind=c_size_t))
  end function rounds_whole

  function rounds_sized(routine, routine_len, rounds, rounds_len) result(outcome)
    integer(c_int8_t), intent(in) :: routine(*)
    integer(c_int32_t), intent(in) :: routine_len
    integer(c_int8_t), intent(inout) :: rounds(*)
    integer(c_int32_t), intent(in) :: rounds_len
    type(hpf_outcome) :: outcome
    outcome = hpf_rounds(routine, int(routine_len, c_size_t), rounds, int(rounds_len, c_size_t))
  end function rounds_sized

  ! What the number of a refusal says, without its places; empty for any other number.
  pure function hpf_text(number) result(text)
    integer(c_int64_t), intent(in) :: number
    character(:), allocatable :: text
    select case (number)
    case (hpf_short_buffer)
      text = 'the buffer is too short'
    case (hpf_short_report)
      text = 'the buffer of the report is too short'
    case (hpf_wrong_mark)
      text = 'the routine is too short, or its mark is wrong'
    case (hpf_wrong_edition)
      text = 'the edition is not known'
    case (hpf_wrong_count)
      text = 'a count is outside its limits'
    case (hpf_wrong_offset)
      text = 'an offset or the length is wrong'
    case (hpf_wrong_array)
      text = 'a byte of an array is wrong'
    case (hpf_unknown_action)
      text = 'an action is unknown'
    case (hpf_wrong_edge)
      text = 'an edge is wrong'
    case (hpf_version_too_large)
      text = 'a version is not below the number of its array''s versions'
    case (hpf_action_at_end)
      text = 'entry or exit has an action'
    case (hpf_mixed_actions)
      text = 'a vertex has two of references, remappings and calls'
    case (hpf_writes_in_argument)
      text = 'an in argument is written or killed, or passed to be written'
    case (hpf_ambiguous)
      text = 'a reference or a call is ambiguous'
    case (hpf_too_many_vertices)
      text = 'there are too many vertices once calls are expanded'
    case (hpf_wrong_path_length)
      text = 'the path has no vertex, or too many of them'
    case (hpf_wrong_start)
      text = 'the path does not start at the entry'
    case (hpf_no_such_edge)
      text = 'a step of the path is no edge'
    case (hpf_malformed_directives)
      text = 'the directive file is malformed'
    case (hpf_too_many_mappings)
      text = 'an array has too many mappings'
    case (hpf_two_mappings)
      text = 'a directive can leave an array in two mappings'
    case default
      text = ''
    end select
  end function hpf_text
end module hpf_remap
