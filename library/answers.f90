! Each call of the module llama_layout. tools/library_examples runs it; it says what differs, and ends with 0 where nothing does.
program answers
  use, intrinsic :: iso_c_binding, only: c_bool, c_char, c_double, c_int16_t, c_int32_t, c_int64_t, c_ptr, c_size_t, c_sizeof
  use llama_layout
  implicit none
  character(*), parameter :: record_line = 'record P { x: i32, n: u16 }'
  character(*), parameter :: view_line = 'view V : P [2, 2] as aos(packed, row)'
  character(*), parameter :: load_line = 'load V : P [?, 2] as soa(multi, row) from "any"'
  character, parameter :: lf = achar(10)
  character(*), parameter :: csv = 'n,x' // lf // '2,1' // lf // '4,3' // lf // '6,5' // lf // '8,7' // lf
  character(*), parameter :: table = 'x,n' // lf // '1,2' // lf // '3,4' // lf // '5,6' // lf // '7,8' // lf
  type(lly_view) :: view, other
  type(lly_fault) :: fault
  type(lly_places) :: places
  type(c_ptr) :: at
  integer(c_int64_t) :: row, number, numbers(4)
  integer(c_size_t) :: many, needed
  integer(c_int32_t) :: bits, wide(4)
  integer(c_int16_t) :: short(2) = [3_c_int16_t, 5_c_int16_t]
  real(c_double) :: reals(2)
  logical(c_bool) :: sign
  character(kind=c_char, len=200) :: text
  logical :: differs = .false.

  call expect(lly_version() / 10000, 1)
  call expect(lly_new(view, record_line, len(record_line, c_size_t), view_line, len(view_line, c_size_t), fault), LLY_DONE)
  call expect(lly_load(other, record_line, len(record_line, c_size_t), load_line, len(load_line, c_size_t), csv, &
                       len(csv, c_size_t), fault), LLY_DONE)
  call expect(lly_copy(other, view, fault), LLY_DONE)
  call expect(lly_rows(view, row), LLY_DONE)
  call expect(int(row), 4)
  call expect(lly_place(view, 0_c_size_t, places, fault), LLY_DONE)
  call expect(places%width, 32)
  call expect(int(places%lane), 6)
  call expect(lly_blob_at(view, places%blob, at, needed), LLY_DONE)
  call expect(int(needed), int(places%bytes))
  call expect(lly_leaves(view, many), LLY_DONE)
  call expect(int(many), 2)
  call expect(lly_blobs(other, many), LLY_DONE)
  call expect(int(many), 2)
  call expect(lly_row(view, [1_c_int64_t, 0_c_int64_t], 2_c_size_t, row), LLY_DONE)
  call expect(int(row), 2)
  call expect(lly_leaf(view, 'n', 1_c_size_t, many), LLY_DONE)
  call expect(int(many), 1)
  call expect(lly_extents(view, numbers, 4_c_size_t, needed), LLY_DONE)
  call expect(int(10 * numbers(1) + numbers(2) + 100 * needed), 222)
  call expect(lly_path(view, 1_c_size_t, text, len(text, c_size_t), needed), LLY_DONE)
  call expect(merge(0, 1, text(:needed) == 'n'), 0)
  call expect(lly_type(view, 0_c_size_t, bits, sign), LLY_DONE)
  call expect(merge(bits, 0, logical(sign)), 32)
  call expect(lly_counts(view, 0_c_size_t, row, number), LLY_NO_PLACE)
  call expect(lly_print(view, text, len(text, c_size_t), needed), LLY_DONE)
  call expect(merge(0, 1, text(:needed) == table), 0)
  call expect(lly_get(view, 3_c_int64_t, 0_c_size_t, number), LLY_DONE)
  call expect(int(number), 7)
  call expect(lly_get_u64(view, 3_c_int64_t, 1_c_size_t, number), LLY_DONE)
  call expect(int(number), 8)
  call expect(lly_get_u64(view, 3_c_int64_t, 0_c_size_t, number), LLY_BAD_TYPE)
  call expect(lly_set(view, 0_c_int64_t, 0_c_size_t, -1_c_int64_t), LLY_DONE)
  call expect(lly_set_u64(view, 0_c_int64_t, 0_c_size_t, -1_c_int64_t), LLY_RANGE)
  call expect(lly_set_run(view, 1_c_int64_t, 1_c_size_t, [1_c_int64_t, 65536_c_int64_t], 2_c_size_t, fault), LLY_RANGE)
  call expect(int(fault%row), 2)
  call expect(lly_set_run_u64(view, 0_c_int64_t, 1_c_size_t, [9_c_int64_t], 1_c_size_t, fault), LLY_DONE)
  call expect(lly_get_run(view, 0_c_int64_t, 0_c_size_t, numbers, 4_c_size_t), LLY_DONE)
  call expect(int(sum(numbers)), 14)
  call expect(lly_get_run_u64(view, 0_c_int64_t, 1_c_size_t, numbers, 4_c_size_t), LLY_DONE)
  call expect(int(sum(numbers)), 24)
  call expect(lly_set_run_as(view, 1_c_int64_t, 0_c_size_t, storage_size(short), .true._c_bool, short, &
                             c_sizeof(short), fault), LLY_DONE)
  call expect(lly_get_run_as(view, 0_c_int64_t, 0_c_size_t, storage_size(wide), .true._c_bool, wide, &
                             c_sizeof(wide)), LLY_DONE)
  call expect(sum(int(wide)), 14)
  call expect(lly_get_run_as(view, 0_c_int64_t, 0_c_size_t, storage_size(reals), .false._c_bool, reals, &
                             c_sizeof(reals)), LLY_BAD_TYPE)
  call expect(lly_relayout(view, 'relayout V as aosoa(2, col)', 27_c_size_t, fault), LLY_DONE)
  call expect(lly_kernel(view, 'kernel V sum(x) lanes 4', 23_c_size_t, number, fault), LLY_DONE)
  call expect(int(number), 14)
  call expect(lly_do(view, 'reduce V max x', 14_c_size_t, number, fault), LLY_DONE)
  call expect(lly_do(view, 'set V[0].y = 1', 14_c_size_t, number, fault), LLY_UNKNOWN)
  call expect(lly_tell(view, 'counts V', 8_c_size_t, text, len(text, c_size_t), needed, fault), LLY_NOT_COUNTED)
  call expect(lly_message(LLY_NOT_COUNTED, fault, text, len(text, c_size_t), needed), LLY_DONE)
  call expect(merge(0, 1, text(:needed) == 'NotCounted'), 0)
  call expect(lly_blob(view, 0_c_size_t, text, 1_c_size_t, needed), LLY_NO_ROOM)
  call expect(lly_save(view, text, len(text, c_size_t), needed), LLY_DONE)
  call expect(lly_open(other, text, needed, fault), LLY_DONE)
  call expect(lly_record(other, text, len(text, c_size_t), needed), LLY_DONE)
  call expect(merge(0, 1, text(:9) == 'record R '), 0)
  call expect(lly_layout(other, text, 1_c_size_t, needed), LLY_NO_ROOM)
  call expect(lly_lend(view, text, len(text, c_size_t), many), LLY_DONE)
  call expect(lly_return(other, text, many, fault), LLY_DONE)
  call expect(lly_return(other, text, many - 1, fault), LLY_BAD_FILE)
  call expect(lly_open(other, text, needed - 1, fault), LLY_BAD_FILE)
  call expect(lly_scatter(view, [3_c_int64_t, 1_c_int64_t], 2_c_size_t, 0_c_size_t, [1_c_int64_t, 2_c_int64_t], fault), LLY_DONE)
  call expect(lly_scatter_add(view, [1_c_int64_t, 1_c_int64_t], 2_c_size_t, 0_c_size_t, &
                              [3_c_int64_t, 4_c_int64_t], fault), LLY_DONE)
  call expect(lly_gather(view, [3_c_int64_t, 1_c_int64_t], 2_c_size_t, 0_c_size_t, numbers), LLY_DONE)
  call expect(int(10 * numbers(1) + numbers(2)), 19)
  call expect(lly_scatter_u64(view, [2_c_int64_t], 1_c_size_t, 1_c_size_t, [65536_c_int64_t], fault), LLY_RANGE)
  call expect(int(fault%row), 2)
  call expect(lly_gather_u64(view, [4_c_int64_t], 1_c_size_t, 1_c_size_t, numbers), LLY_NO_PLACE)
  call expect(lly_set_box(view, [0_c_int64_t, 1_c_int64_t], [2_c_int64_t, 2_c_int64_t], 2_c_size_t, 0_c_size_t, &
                          [5_c_int64_t, 6_c_int64_t], 2_c_size_t, fault), LLY_DONE)
  call expect(lly_get_box(view, [0_c_int64_t, 0_c_int64_t], [1_c_int64_t, 2_c_int64_t], 2_c_size_t, 0_c_size_t, &
                          numbers, 2_c_size_t), LLY_DONE)
  call expect(int(numbers(2)), 5)
  call expect(lly_set_box_u64(view, [1_c_int64_t, 0_c_int64_t], [2_c_int64_t, 1_c_int64_t], 2_c_size_t, 1_c_size_t, &
                              [65536_c_int64_t], 1_c_size_t, fault), LLY_RANGE)
  call expect(int(fault%row), 2)
  call expect(lly_get_box_u64(view, [0_c_int64_t], [1_c_int64_t], 1_c_size_t, 1_c_size_t, numbers, 1_c_size_t), LLY_BAD_WINDOW)
  call lly_drop(view)
  call expect(lly_rows(view, row), LLY_NO_VIEW)
  call lly_drop(other)
  if (differs) error stop 'something differs'

contains

  subroutine expect(is, due)
    integer(c_int32_t), intent(in) :: is, due
    integer :: number = 0
    save number
    number = number + 1
    if (is /= due) print '(3(a, i0))', 'expectation ', number, ' is ', is, ', and not ', due
    differs = differs .or. is /= due
  end subroutine
end program
