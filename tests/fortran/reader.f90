! A reader of CLASSIC files, version 2, in the steps of section 4 of IRAM memo 2013-2 and with the fields as its Table 4
! has them: Fortran direct access, one record at a time. It is for admitted files, and stops with a message at others.
! The file code says which byte order the integers have, and with that order the file is opened, so that the compiler
! turns them. All else is read as characters, whose bytes it never turns.
! Usage: reader FILE list | descriptor | numbers ENTRY | index ENTRY | section ENTRY IDENTIFIER | data ENTRY
! list prints document 01's listing. descriptor prints the byte order, 0 for little and 1 for big, and what else the
! descriptor holds; numbers prints an entry's version and adata; both have one number a line, in decimal. The others
! print one word a line, its four bytes in hexadecimal.
program reader
  use, intrinsic :: iso_fortran_env, only: error_unit
  implicit none

  ! The file codes of the two byte orders, which have the numbers 0 and 1, and the orders as open knows them.
  character(4), parameter :: file_codes(0:1) = ['2A  ', '2B  ']
  character(13), parameter :: orders(0:1) = ['little_endian', 'big_endian   ']
  character(4), parameter :: entry_code = '2   '
  integer(8), parameter :: low_half = int(z'FFFFFFFF', 8)

  ! A word of the file: its record, and its number in that record or, past the record's end, in those that follow.
  type place
    integer(8) :: record, word
  end type place

  ! An entry: where it starts, and the numbers of its descriptor.
  type entry
    type(place) :: start
    integer(4) :: version, nsec
    integer(8) :: nword, adata, ldata
  end type entry

  ! The file and its byte order, the bytes of each word of the record that was read last, and that record's number.
  integer :: file, order = 0
  character(4), allocatable :: words(:)
  integer(8) :: held = 0

  ! The numbers of the file descriptor that finding an entry takes.
  integer(4) :: reclen, lind, lex1, nex, gex
  integer(8) :: xnext

  call open_file(argument(1))
  select case (argument(2))
  case ('list')
    call list_entries
  case ('descriptor')
    call print_descriptor
  case ('numbers')
    call print_numbers(opened(number(3)))
  case ('index')
    call print_words(at(index_of(number(3)), 4_8), int(lind - 3, 8))
  case ('section')
    call print_section(opened(number(3)), number(4))
  case ('data')
    call print_data(opened(number(3)))
  case default
    call give_up('usage: reader FILE QUESTION; the head of reader.f90 has the questions')
  end select

contains

  ! Stops with a message.
  subroutine give_up(what)
    character(*), intent(in) :: what
    write (error_unit, '(2a)') 'reader: ', what
    stop 1, quiet=.true.
  end subroutine give_up

  ! A word of the command line, empty where there is none.
  function argument(i)
    integer, intent(in) :: i
    character(:), allocatable :: argument
    integer :: length
    call get_command_argument(i, length=length)
    allocate (character(length) :: argument)
    call get_command_argument(i, argument)
  end function argument

  ! A number of the command line.
  function number(i)
    integer, intent(in) :: i
    integer(8) :: number
    integer :: status
    character(:), allocatable :: digits
    digits = argument(i)
    read (digits, *, iostat=status) number
    if (status /= 0) call give_up("'" // digits // "' is no number")
  end function number

  ! Steps 1 to 5: looks at the code, opens the file again by its byte order and then by its record length, and reads what
  ! the descriptor says.
  subroutine open_file(name)
    character(*), intent(in) :: name
    call open_records(name, 16)
    order = findloc(file_codes, bytes_at(place(1, 1)), 1) - 1
    close (file)
    if (order < 0) call give_up('the file code is not that of a version 2 file in either byte order')
    call open_records(name, 16)
    reclen = integer4_at(place(1, 2))
    close (file)
    if (reclen < 16) call give_up('a record has 16 words or more')
    call open_records(name, reclen)
    lind = integer4_at(place(1, 5))
    xnext = integer8_at(place(1, 7))
    lex1 = integer4_at(place(1, 12))
    nex = integer4_at(place(1, 13))
    gex = integer4_at(place(1, 14))
  end subroutine open_file

  ! Opens the file with records of so many words, its integers in the byte order.
  subroutine open_records(name, length)
    character(*), intent(in) :: name
    integer(4), intent(in) :: length
    integer :: status
    open (newunit=file, file=name, status='old', action='read', access='direct', form='unformatted', &
          recl=4 * length, convert=trim(orders(order)), iostat=status)
    if (status /= 0) call give_up(name // ' cannot be opened')
    if (allocated(words)) deallocate (words)
    allocate (words(length))
    held = 0
  end subroutine open_records

  ! Reads the record that a place stands in, whole, and gives the place's word in that record.
  subroutine hold(p, word)
    type(place), intent(in) :: p
    integer(8), intent(out) :: word
    integer(8) :: record
    integer :: status
    record = p%record + (p%word - 1) / size(words)
    word = mod(p%word - 1, int(size(words), 8)) + 1
    if (record == held) return
    read (file, rec=record, iostat=status) words
    if (status /= 0) call give_up('a record that the file should have cannot be read')
    held = record
  end subroutine hold

  ! The four bytes of the word at a place.
  function bytes_at(p) result(bytes)
    type(place), intent(in) :: p
    character(4) :: bytes
    integer(8) :: word
    call hold(p, word)
    bytes = words(word)
  end function bytes_at

  ! The Integer*4 at a place: the record is read up to it, and the compiler turns it.
  function integer4_at(p) result(value)
    type(place), intent(in) :: p
    integer(4) :: value
    integer(8) :: word
    call hold(p, word)
    read (file, rec=held) words(:word - 1), value
  end function integer4_at

  ! The Integer*8 at a place, likewise; across the end of a record no read goes, and it is put together of two words.
  function integer8_at(p) result(value)
    type(place), intent(in) :: p
    integer(8) :: value, word
    call hold(p, word)
    if (word == size(words)) then
      value = joined(integer4_at(p), integer4_at(at(p, 2_8)))
    else
      read (file, rec=held) words(:word - 1), value
    end if
  end function integer8_at

  ! The Integer*8 of two words: in the big order the high one comes first, in the little order the low one.
  pure function joined(first, second)
    integer(4), intent(in) :: first, second
    integer(8) :: joined, high, low
    high = merge(first, second, order == 1)
    low = merge(second, first, order == 1)
    joined = ior(ishft(high, 32), iand(low, low_half))
  end function joined

  ! The place of a word by its position, which is counted from 1 at a place.
  pure function at(p, position)
    type(place), intent(in) :: p
    integer(8), intent(in) :: position
    type(place) :: at
    at = place(p%record, p%word + position - 1)
  end function at

  ! The capacity of extension iex, Equation 1: lex1 * gex**(iex-1) / 10**(iex-1) exactly, the fraction dropped once.
  pure function capacity_of(iex)
    integer(8), intent(in) :: iex
    integer(8) :: capacity_of
    capacity_of = int(lex1 * int(gex, 16)**(iex - 1) / 10_16**(iex - 1), 8)
  end function capacity_of

  ! Steps 5 to 7: the place of an entry's index.
  function index_of(ient) result(p)
    integer(8), intent(in) :: ient
    type(place) :: p
    integer(8) :: jent, iex, offset
    if (ient < 1 .or. ient >= xnext) call give_up('the file has no entry of this number')
    jent = ient
    iex = 1
    do while (jent > capacity_of(iex))
      jent = jent - capacity_of(iex)
      iex = iex + 1
    end do
    offset = (jent - 1) * lind
    p = place(integer8_at(place(1, 13 + 2 * iex)) + offset / reclen, mod(offset, int(reclen, 8)) + 1)
  end function index_of

  ! Steps 8 to 10: an entry's start by its index, and its descriptor.
  function opened(ient) result(e)
    integer(8), intent(in) :: ient
    type(entry) :: e
    type(place) :: slot
    slot = index_of(ient)
    e%start = place(integer8_at(slot), integer4_at(at(slot, 3_8)))
    if (bytes_at(e%start) /= entry_code) call give_up('the entry code is not there')
    if (integer8_at(at(e%start, 10_8)) /= ient) call give_up('the entry has another number')
    e%version = integer4_at(at(e%start, 2_8))
    e%nsec = integer4_at(at(e%start, 3_8))
    e%nword = integer8_at(at(e%start, 4_8))
    e%adata = integer8_at(at(e%start, 6_8))
    e%ldata = integer8_at(at(e%start, 8_8))
  end function opened

  ! Prints the listing.
  subroutine list_entries
    type(entry) :: e
    integer(8) :: ient
    print '(a)', 'entry record word words sections data'
    do ient = 1, xnext - 1
      e = opened(ient)
      print '(i0, 5(1x, i0))', ient, e%start%record, e%start%word, e%nword, e%nsec, e%ldata
    end do
  end subroutine list_entries

  ! Prints the byte order and the numbers of the file descriptor, with the addresses of the extensions in use.
  subroutine print_descriptor
    integer(8) :: i
    print '(i0)', order
    do i = 2, 6
      call print_integer4(place(1, i))
    end do
    call print_integer8(place(1, 7))
    call print_integer8(place(1, 9))
    do i = 11, 14
      call print_integer4(place(1, i))
    end do
    do i = 1, nex
      call print_integer8(place(1, 13 + 2 * i))
    end do
  end subroutine print_descriptor

  ! Prints the Integer*4 at a place.
  subroutine print_integer4(p)
    type(place), intent(in) :: p
    integer(4) :: value
    value = integer4_at(p)
    print '(i0)', value
  end subroutine print_integer4

  ! Prints the Integer*8 at a place.
  subroutine print_integer8(p)
    type(place), intent(in) :: p
    integer(8) :: value
    value = integer8_at(p)
    print '(i0)', value
  end subroutine print_integer8

  ! Prints the bytes of so many words from a place on.
  subroutine print_words(p, length)
    type(place), intent(in) :: p
    integer(8), intent(in) :: length
    integer(8) :: i
    integer :: j
    character(4) :: bytes
    do i = 1, length
      bytes = bytes_at(at(p, i))
      print '(4z2.2)', (ichar(bytes(j:j)), j = 1, 4)
    end do
  end subroutine print_words

  ! Prints the numbers of an entry that the listing has not.
  subroutine print_numbers(e)
    type(entry), intent(in) :: e
    print '(i0)', e%version, e%adata
  end subroutine print_numbers

  ! Steps 10 and 11: prints the first section that has an identifier.
  subroutine print_section(e, identifier)
    type(entry), intent(in) :: e
    integer(8), intent(in) :: identifier
    integer(8) :: i, address, length
    do i = 1, e%nsec
      if (integer4_at(at(e%start, 11 + i)) == identifier) then
        length = integer8_at(at(e%start, 10 + e%nsec + 2 * i))
        address = integer8_at(at(e%start, 10 + 3 * e%nsec + 2 * i))
        call print_words(at(e%start, address), length)
        return
      end if
    end do
    call give_up('the entry has no section with this identifier')
  end subroutine print_section

  ! Step 12: prints the data, if there are any.
  subroutine print_data(e)
    type(entry), intent(in) :: e
    if (e%ldata > 0) call print_words(at(e%start, e%adata), e%ldata)
  end subroutine print_data
end program reader
