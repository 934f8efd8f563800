! A column of a view in an array of Fortran.
program column
  use, intrinsic :: iso_c_binding, only: c_int32_t, c_int64_t, c_size_t
  use llama_layout
  implicit none
  character(*), parameter :: record_line = 'record Atom { charge: i8, level: u32 }'
  character(*), parameter :: view_line = 'view Atoms : Atom [100] as bitsoa(8 { level: 20 }, row)'
  type(lly_view) :: view
  type(lly_fault) :: fault
  integer(c_int64_t) :: row, levels(100)
  call must(lly_new(view, record_line, len(record_line, c_size_t), view_line, len(view_line, c_size_t), fault))
  levels = [(row * row, row = 0, 99)]
  call must(lly_set_run(view, 0_c_int64_t, 1_c_size_t, levels, size(levels, kind=c_size_t), fault))
  call must(lly_get_run(view, 0_c_int64_t, 1_c_size_t, levels, size(levels, kind=c_size_t)))
  print '(i0, 1x, i0, 1x, i0)', levels(1), levels(100), sum(levels)
  if (lly_set(view, 0_c_int64_t, 1_c_size_t, 1048576_c_int64_t) == LLY_NARROW) print '(a)', 'no 20 bits'
  call lly_drop(view)

contains

  subroutine must(answer)
    integer(c_int32_t), intent(in) :: answer
    if (answer /= LLY_DONE) error stop 'a call is refused'
  end subroutine
end program
