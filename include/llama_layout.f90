! The calls of llama_layout.h for Fortran. A text is handed on with its length, len(text, c_size_t), a number without a sign as the
! signed one of the same bits. Rows, leaves and blobs count from 0. It is compiled with the program.
module llama_layout
  use, intrinsic :: iso_c_binding, only: c_bool, c_char, c_int32_t, c_int64_t, c_null_ptr, c_ptr, c_size_t
  implicit none
  private :: c_bool, c_char, c_int32_t, c_int64_t, c_null_ptr, c_ptr, c_size_t

  ! What a call answers: the header says more of each.
  enum, bind(c)
    enumerator :: LLY_DONE = 0, LLY_NO_VIEW = 1, LLY_NO_PLACE = 2, LLY_NO_MEMORY = 3, LLY_NO_ROOM = 4
    enumerator :: LLY_BAD_TYPE = 5, LLY_RANGE = 6, LLY_NARROW = 7, LLY_MISMATCH = 8, LLY_SYNTAX = 9
    enumerator :: LLY_TOO_DEEP = 10, LLY_OTHER_LINE = 11, LLY_LINE_TOO_LONG = 12, LLY_UNKNOWN = 13, LLY_BAD_RECORD = 14
    enumerator :: LLY_BAD_EXTENTS = 15, LLY_BAD_MAPPING = 16, LLY_TOO_BIG = 17, LLY_BAD_KERNEL = 18, LLY_EMPTY = 19
    enumerator :: LLY_MISSING_COLUMN = 20, LLY_COLUMN_TWICE = 21, LLY_SHORT_ROW = 22, LLY_NUMBER = 23, LLY_BAD_FILE = 24
    enumerator :: LLY_NULL = 25, LLY_SAME = 26, LLY_TWICE = 27, LLY_OVERFLOW = 28, LLY_DIVIDE_BY_ZERO = 29
    enumerator :: LLY_NOT_COUNTED = 30, LLY_BAD_WINDOW = 31, LLY_IRREGULAR = 32, LLY_BAD_STENCIL = 33, LLY_BAD_ACTORS = 34
    enumerator :: LLY_BAD_ADVICE = 35, LLY_SHARED_BYTE = 36
  end enum

  ! A view, or none. It is never copied while it holds one, so no variable of this type is assigned to another.
  type, bind(c) :: lly_view
    logical(c_bool) :: full = .false.
    type(c_ptr) :: at = c_null_ptr
  end type

  type, bind(c) :: lly_fault
    integer(c_int32_t) :: cause = 0
    integer(c_int64_t) :: row = 0
    integer(c_size_t) :: leaf = 0
    integer(c_int64_t) :: column = 0
  end type

  ! Where the numbers of a leaf lie: the header says how. c_f_pointer makes a pointer to an array of a blob.
  type, bind(c) :: lly_places
    integer(c_size_t) :: blob = 0
    integer(c_int64_t) :: bytes = 0, base = 0, lanes = 0, lane = 0, block = 0
    integer(c_int32_t) :: width = 0
    logical(c_bool) :: is_signed = .false., is_turned = .false., in_bits = .false., in_digits = .false.
  end type

  interface
    integer(c_int32_t) function lly_version() bind(c)
      import
    end function

    integer(c_int32_t) function lly_new(out, first, first_len, second, second_len, fault) bind(c)
      import
      type(lly_view), intent(inout) :: out
      character(kind=c_char), intent(in) :: first(*), second(*)
      integer(c_size_t), value :: first_len, second_len
      type(lly_fault), intent(inout) :: fault
    end function

    integer(c_int32_t) function lly_load(out, first, first_len, second, second_len, csv, csv_len, fault) bind(c)
      import
      type(lly_view), intent(inout) :: out
      character(kind=c_char), intent(in) :: first(*), second(*), csv(*)
      integer(c_size_t), value :: first_len, second_len, csv_len
      type(lly_fault), intent(inout) :: fault
    end function

    integer(c_int32_t) function lly_open(out, bytes, bytes_len, fault) bind(c)
      import
      type(lly_view), intent(inout) :: out
      character(kind=c_char), intent(in) :: bytes(*)
      integer(c_size_t), value :: bytes_len
      type(lly_fault), intent(inout) :: fault
    end function

    subroutine lly_drop(view) bind(c)
      import
      type(lly_view), intent(inout) :: view
    end subroutine

    integer(c_int32_t) function lly_rows(view, rows) bind(c)
      import
      type(lly_view), intent(inout) :: view
      integer(c_int64_t), intent(inout) :: rows
    end function

    integer(c_int32_t) function lly_leaves(view, leaves) bind(c)
      import
      type(lly_view), intent(inout) :: view
      integer(c_size_t), intent(inout) :: leaves
    end function

    integer(c_int32_t) function lly_blobs(view, blobs) bind(c)
      import
      type(lly_view), intent(inout) :: view
      integer(c_size_t), intent(inout) :: blobs
    end function

    integer(c_int32_t) function lly_row(view, index, rank, row) bind(c)
      import
      type(lly_view), intent(inout) :: view
      integer(c_int64_t), intent(in) :: index(*)
      integer(c_size_t), value :: rank
      integer(c_int64_t), intent(inout) :: row
    end function

    integer(c_int32_t) function lly_leaf(view, path, path_len, leaf) bind(c)
      import
      type(lly_view), intent(inout) :: view
      character(kind=c_char), intent(in) :: path(*)
      integer(c_size_t), value :: path_len
      integer(c_size_t), intent(inout) :: leaf
    end function

    integer(c_int32_t) function lly_extents(view, extents, rank, needed) bind(c)
      import
      type(lly_view), intent(inout) :: view
      integer(c_int64_t), intent(inout) :: extents(*)
      integer(c_size_t), value :: rank
      integer(c_size_t), intent(inout) :: needed
    end function

    integer(c_int32_t) function lly_path(view, leaf, path, path_len, needed) bind(c)
      import
      type(lly_view), intent(inout) :: view
      integer(c_size_t), value :: leaf, path_len
      character(kind=c_char), intent(inout) :: path(*)
      integer(c_size_t), intent(inout) :: needed
    end function

    integer(c_int32_t) function lly_type(view, leaf, bits, sign) bind(c)
      import
      type(lly_view), intent(inout) :: view
      integer(c_size_t), value :: leaf
      integer(c_int32_t), intent(inout) :: bits
      logical(c_bool), intent(inout) :: sign
    end function

    integer(c_int32_t) function lly_counts(view, leaf, reads, writes) bind(c)
      import
      type(lly_view), intent(inout) :: view
      integer(c_size_t), value :: leaf
      integer(c_int64_t), intent(inout) :: reads, writes
    end function

    integer(c_int32_t) function lly_get(view, row, leaf, value) bind(c)
      import
      type(lly_view), intent(inout) :: view
      integer(c_int64_t), value :: row
      integer(c_size_t), value :: leaf
      integer(c_int64_t), intent(inout) :: value
    end function

    integer(c_int32_t) function lly_get_u64(view, row, leaf, value) bind(c)
      import
      type(lly_view), intent(inout) :: view
      integer(c_int64_t), value :: row
      integer(c_size_t), value :: leaf
      integer(c_int64_t), intent(inout) :: value
    end function

    integer(c_int32_t) function lly_set(view, row, leaf, value) bind(c)
      import
      type(lly_view), intent(inout) :: view
      integer(c_int64_t), value :: row, value
      integer(c_size_t), value :: leaf
    end function

    integer(c_int32_t) function lly_set_u64(view, row, leaf, value) bind(c)
      import
      type(lly_view), intent(inout) :: view
      integer(c_int64_t), value :: row, value
      integer(c_size_t), value :: leaf
    end function

    integer(c_int32_t) function lly_get_run(view, first, leaf, values, count) bind(c)
      import
      type(lly_view), intent(inout) :: view
      integer(c_int64_t), value :: first
      integer(c_size_t), value :: leaf, count
      integer(c_int64_t), intent(inout) :: values(*)
    end function

    integer(c_int32_t) function lly_get_run_u64(view, first, leaf, values, count) bind(c)
      import
      type(lly_view), intent(inout) :: view
      integer(c_int64_t), value :: first
      integer(c_size_t), value :: leaf, count
      integer(c_int64_t), intent(inout) :: values(*)
    end function

    integer(c_int32_t) function lly_set_run(view, first, leaf, values, count, fault) bind(c)
      import
      type(lly_view), intent(inout) :: view
      integer(c_int64_t), value :: first
      integer(c_size_t), value :: leaf, count
      integer(c_int64_t), intent(in) :: values(*)
      type(lly_fault), intent(inout) :: fault
    end function

    integer(c_int32_t) function lly_set_run_u64(view, first, leaf, values, count, fault) bind(c)
      import
      type(lly_view), intent(inout) :: view
      integer(c_int64_t), value :: first
      integer(c_size_t), value :: leaf, count
      integer(c_int64_t), intent(in) :: values(*)
      type(lly_fault), intent(inout) :: fault
    end function

    ! Of any numbers, of integers and of reals: bits is storage_size(bytes), sign is .true. of integers with one, and bytes_len is c_sizeof(bytes).
    integer(c_int32_t) function lly_get_run_as(view, first, leaf, bits, sign, bytes, bytes_len) bind(c)
      import
      type(lly_view), intent(inout) :: view
      integer(c_int64_t), value :: first
      integer(c_size_t), value :: leaf, bytes_len
      integer(c_int32_t), value :: bits
      logical(c_bool), value :: sign
      type(*), intent(inout) :: bytes(*)
    end function

    integer(c_int32_t) function lly_set_run_as(view, first, leaf, bits, sign, bytes, bytes_len, fault) bind(c)
      import
      type(lly_view), intent(inout) :: view
      integer(c_int64_t), value :: first
      integer(c_size_t), value :: leaf, bytes_len
      integer(c_int32_t), value :: bits
      logical(c_bool), value :: sign
      type(*), intent(in) :: bytes(*)
      type(lly_fault), intent(inout) :: fault
    end function

    integer(c_int32_t) function lly_gather(view, rows, count, leaf, values) bind(c)
      import
      type(lly_view), intent(inout) :: view
      integer(c_int64_t), intent(in) :: rows(*)
      integer(c_size_t), value :: count, leaf
      integer(c_int64_t), intent(inout) :: values(*)
    end function

    integer(c_int32_t) function lly_gather_u64(view, rows, count, leaf, values) bind(c)
      import
      type(lly_view), intent(inout) :: view
      integer(c_int64_t), intent(in) :: rows(*)
      integer(c_size_t), value :: count, leaf
      integer(c_int64_t), intent(inout) :: values(*)
    end function

    integer(c_int32_t) function lly_scatter(view, rows, count, leaf, values, fault) bind(c)
      import
      type(lly_view), intent(inout) :: view
      integer(c_int64_t), intent(in) :: rows(*)
      integer(c_size_t), value :: count, leaf
      integer(c_int64_t), intent(in) :: values(*)
      type(lly_fault), intent(inout) :: fault
    end function

    integer(c_int32_t) function lly_scatter_u64(view, rows, count, leaf, values, fault) bind(c)
      import
      type(lly_view), intent(inout) :: view
      integer(c_int64_t), intent(in) :: rows(*)
      integer(c_size_t), value :: count, leaf
      integer(c_int64_t), intent(in) :: values(*)
      type(lly_fault), intent(inout) :: fault
    end function

    integer(c_int32_t) function lly_scatter_add(view, rows, count, leaf, values, fault) bind(c)
      import
      type(lly_view), intent(inout) :: view
      integer(c_int64_t), intent(in) :: rows(*)
      integer(c_size_t), value :: count, leaf
      integer(c_int64_t), intent(in) :: values(*)
      type(lly_fault), intent(inout) :: fault
    end function

    integer(c_int32_t) function lly_get_box(view, low, high, rank, leaf, values, count) bind(c)
      import
      type(lly_view), intent(inout) :: view
      integer(c_int64_t), intent(in) :: low(*), high(*)
      integer(c_size_t), value :: rank, leaf, count
      integer(c_int64_t), intent(inout) :: values(*)
    end function

    integer(c_int32_t) function lly_get_box_u64(view, low, high, rank, leaf, values, count) bind(c)
      import
      type(lly_view), intent(inout) :: view
      integer(c_int64_t), intent(in) :: low(*), high(*)
      integer(c_size_t), value :: rank, leaf, count
      integer(c_int64_t), intent(inout) :: values(*)
    end function

    integer(c_int32_t) function lly_set_box(view, low, high, rank, leaf, values, count, fault) bind(c)
      import
      type(lly_view), intent(inout) :: view
      integer(c_int64_t), intent(in) :: low(*), high(*)
      integer(c_size_t), value :: rank, leaf, count
      integer(c_int64_t), intent(in) :: values(*)
      type(lly_fault), intent(inout) :: fault
    end function

    integer(c_int32_t) function lly_set_box_u64(view, low, high, rank, leaf, values, count, fault) bind(c)
      import
      type(lly_view), intent(inout) :: view
      integer(c_int64_t), intent(in) :: low(*), high(*)
      integer(c_size_t), value :: rank, leaf, count
      integer(c_int64_t), intent(in) :: values(*)
      type(lly_fault), intent(inout) :: fault
    end function

    integer(c_int32_t) function lly_copy(source, target, fault) bind(c)
      import
      type(lly_view), intent(inout) :: source, target
      type(lly_fault), intent(inout) :: fault
    end function

    integer(c_int32_t) function lly_relayout(view, line, line_len, fault) bind(c)
      import
      type(lly_view), intent(inout) :: view
      character(kind=c_char), intent(in) :: line(*)
      integer(c_size_t), value :: line_len
      type(lly_fault), intent(inout) :: fault
    end function

    integer(c_int32_t) function lly_kernel(view, line, line_len, value, fault) bind(c)
      import
      type(lly_view), intent(inout) :: view
      character(kind=c_char), intent(in) :: line(*)
      integer(c_size_t), value :: line_len
      integer(c_int64_t), intent(inout) :: value
      type(lly_fault), intent(inout) :: fault
    end function

    integer(c_int32_t) function lly_do(view, line, line_len, number, fault) bind(c)
      import
      type(lly_view), intent(inout) :: view
      character(kind=c_char), intent(in) :: line(*)
      integer(c_size_t), value :: line_len
      integer(c_int64_t), intent(inout) :: number
      type(lly_fault), intent(inout) :: fault
    end function

    integer(c_int32_t) function lly_tell(view, line, line_len, text, text_len, needed, fault) bind(c)
      import
      type(lly_view), intent(inout) :: view
      character(kind=c_char), intent(in) :: line(*)
      integer(c_size_t), value :: line_len, text_len
      character(kind=c_char), intent(inout) :: text(*)
      integer(c_size_t), intent(inout) :: needed
      type(lly_fault), intent(inout) :: fault
    end function

    integer(c_int32_t) function lly_print(view, text, text_len, needed) bind(c)
      import
      type(lly_view), intent(inout) :: view
      character(kind=c_char), intent(inout) :: text(*)
      integer(c_size_t), value :: text_len
      integer(c_size_t), intent(inout) :: needed
    end function

    integer(c_int32_t) function lly_save(view, bytes, bytes_len, needed) bind(c)
      import
      type(lly_view), intent(inout) :: view
      character(kind=c_char), intent(inout) :: bytes(*)
      integer(c_size_t), value :: bytes_len
      integer(c_size_t), intent(inout) :: needed
    end function

    integer(c_int32_t) function lly_blob(view, blob, bytes, bytes_len, needed) bind(c)
      import
      type(lly_view), intent(inout) :: view
      integer(c_size_t), value :: blob, bytes_len
      character(kind=c_char), intent(inout) :: bytes(*)
      integer(c_size_t), intent(inout) :: needed
    end function

    integer(c_int32_t) function lly_record(view, text, text_len, needed) bind(c)
      import
      type(lly_view), intent(inout) :: view
      character(kind=c_char), intent(inout) :: text(*)
      integer(c_size_t), value :: text_len
      integer(c_size_t), intent(inout) :: needed
    end function

    integer(c_int32_t) function lly_layout(view, text, text_len, needed) bind(c)
      import
      type(lly_view), intent(inout) :: view
      character(kind=c_char), intent(inout) :: text(*)
      integer(c_size_t), value :: text_len
      integer(c_size_t), intent(inout) :: needed
    end function

    integer(c_int32_t) function lly_lend(view, bytes, bytes_len, needed) bind(c)
      import
      type(lly_view), intent(inout) :: view
      character(kind=c_char), intent(inout) :: bytes(*)
      integer(c_size_t), value :: bytes_len
      integer(c_size_t), intent(inout) :: needed
    end function

    integer(c_int32_t) function lly_return(view, bytes, bytes_len, fault) bind(c)
      import
      type(lly_view), intent(inout) :: view
      character(kind=c_char), intent(in) :: bytes(*)
      integer(c_size_t), value :: bytes_len
      type(lly_fault), intent(inout) :: fault
    end function

    integer(c_int32_t) function lly_message(answer, fault, text, text_len, needed) bind(c)
      import
      integer(c_int32_t), value :: answer
      type(lly_fault), intent(in) :: fault
      character(kind=c_char), intent(inout) :: text(*)
      integer(c_size_t), value :: text_len
      integer(c_size_t), intent(inout) :: needed
    end function

    integer(c_int32_t) function lly_place(view, leaf, places, fault) bind(c)
      import
      type(lly_view), intent(inout) :: view
      integer(c_size_t), value :: leaf
      type(lly_places), intent(inout) :: places
      type(lly_fault), intent(inout) :: fault
    end function

    integer(c_int32_t) function lly_blob_at(view, blob, bytes, length) bind(c)
      import
      type(lly_view), intent(inout) :: view
      integer(c_size_t), value :: blob
      type(c_ptr), intent(inout) :: bytes
      integer(c_size_t), intent(inout) :: length
    end function
  end interface
end module
