! A writer of CLASSIC files, version 2, from Tables 1 and 4 of IRAM memo 2013-2: Fortran direct access, one record at a
! time, with its own bookkeeping. Its entries have gaps between them, their data before, between or behind their
! sections, and some have room for more sections than they have.
! The file is opened with the byte order that is asked for, so that the compiler turns the integers. All else is written
! as characters, whose bytes it never turns.
! Usage: writer prints the names of the files that it can write; writer NAME ORDER FOLDER, where ORDER is little or big,
! writes FOLDER/file.classic and beside it, as text, what it wrote: a file for each question that a reader is asked, as
! section_2_-5. The head of reader.f90 says what the answers are.
program writer
  use, intrinsic :: iso_fortran_env, only: error_unit
  implicit none

  ! The byte orders, which have the numbers 0 and 1, and the file code of each.
  character(6), parameter :: orders(0:1) = ['little', 'big   ']
  character(4), parameter :: file_codes(0:1) = ['2A  ', '2B  ']
  character(4), parameter :: entry_code = '2   ', zero = repeat(char(0), 4)
  integer(8), parameter :: low_half = int(z'FFFFFFFF', 8)

  ! A factor that spreads a small number over all bytes of an Integer*4, and an Integer*8 of eight bytes that differ.
  integer(8), parameter :: spread4 = 1000003, spread8 = int(z'0102030405060708', 8)

  ! A file by its name: its settings, the number of its entries, and the sections that its fullest entry has.
  type plan
    character(10) :: name
    integer(4) :: reclen, kind, vind, lind, flags, lex1, gex
    integer(8) :: entries
    integer(4) :: most
  end type plan
  type(plan), parameter :: plans(8) = [ &
    plan('extensions', 24, 1, 2, 7, 0, 3, 15, 11, 3), &
    plan('ones', 40, 1, 2, 8, 0, 1, 15, 11, 4), &
    plan('fractions', 64, 2, 2, 6, 1, 5, 15, 30, 4), &
    plan('eleven', 46, 1, 5, 5, 0, 1, 11, 27, 3), &
    plan('crossing', 16, 2, 3, 5, 1, 6, 10, 6, 2), &
    plan('wide', 100, 3, 16909060, 256, 0, 2, 20, 5, 64), &
    plan('narrow', 45, 1, 77, 3, 0, 1, 10, 15, 5), &
    plan('empty', 128, 1, 2, 8, 0, 10, 20, 0, 0)]

  ! The file's own settings, its byte order and the folder.
  type(plan) :: own
  integer :: order
  character(:), allocatable :: folder

  ! The file, the bytes of each word of the record at hand, its number, and the count of records that the file has.
  integer :: file, listing
  character(4), allocatable :: words(:)
  integer(8) :: held = 0, records = 0

  ! The bookkeeping: the next free place, the extensions in use, what the last can hold and what it holds.
  integer(8) :: nextrec = 2, nextword = 1, ient
  integer(4) :: nex = 0
  integer(8) :: aex(64), capacity = 0, used = 0

  ! The number of application words that were written so far; each is made from it.
  integer(8) :: made = 0

  call choose
  call open_files
  do ient = 1, own%entries
    if (used == capacity) call add_extension
    call go_on(mod(ient, 3_8))
    call write_entry
  end do
  call write_descriptor
  call hold(0_8)
  close (file)
  close (listing)

contains

  ! A word of the command line, empty where there is none.
  function argument(i)
    integer, intent(in) :: i
    character(:), allocatable :: argument
    integer :: length
    call get_command_argument(i, length=length)
    allocate (character(length) :: argument)
    call get_command_argument(i, argument)
  end function argument

  ! Takes what the command line names; with nothing there prints the names of all plans.
  subroutine choose
    integer :: i
    if (command_argument_count() == 0) then
      print '(a)', (trim(plans(i)%name), i = 1, size(plans))
      stop
    end if
    i = findloc(plans%name == argument(1), .true., 1)
    order = findloc(orders == argument(2), .true., 1) - 1
    folder = argument(3)
    if (i < 1 .or. order < 0) then
      write (error_unit, '(a)') 'usage: writer [NAME little|big FOLDER]'
      stop 1, quiet=.true.
    end if
    own = plans(i)
  end subroutine choose

  ! Opens the file, its integers in the byte order, and its listing.
  subroutine open_files
    open (newunit=file, file=folder // '/file.classic', status='replace', access='direct', form='unformatted', &
          recl=4 * own%reclen, convert=trim(orders(order)) // '_endian')
    allocate (words(own%reclen))
    listing = told('list')
    write (listing, '(a)') 'entry record word words sections data'
  end subroutine open_files

  ! Opens the text that answers a question.
  function told(question) result(text)
    character(*), intent(in) :: question
    integer :: text
    open (newunit=text, file=folder // '/' // question, status='replace')
  end function told

  ! A number as the names of the texts have it.
  function decimal(value)
    integer(8), intent(in) :: value
    character(:), allocatable :: decimal
    character(20) :: room
    write (room, '(i0)') value
    decimal = trim(room)
  end function decimal

  ! Writes the record at hand to the file and takes another one, which is all zero where the file has not got it yet.
  ! Record 0 is none.
  subroutine hold(record)
    integer(8), intent(in) :: record
    if (record == held) return
    if (held > 0) write (file, rec=held) words
    do while (records < record)
      records = records + 1
      words = zero
      write (file, rec=records) words
    end do
    if (record > 0) read (file, rec=record) words
    held = record
  end subroutine hold

  ! Takes the record of a word, which is a later one where the word stands past the end, and gives the word in it.
  subroutine reach(record, word, i)
    integer(8), intent(in) :: record, word
    integer(8), intent(out) :: i
    call hold(record + (word - 1) / own%reclen)
    i = mod(word - 1, int(own%reclen, 8)) + 1
  end subroutine reach

  ! Writes the four bytes of a word.
  subroutine put(record, word, bytes)
    integer(8), intent(in) :: record, word
    character(4), intent(in) :: bytes
    integer(8) :: i
    call reach(record, word, i)
    words(i) = bytes
  end subroutine put

  ! Writes an Integer*4: the record is written with it, as the compiler turns it, and taken back as bytes.
  subroutine put4(record, word, value)
    integer(8), intent(in) :: record, word
    integer(4), intent(in) :: value
    integer(8) :: i
    call reach(record, word, i)
    write (file, rec=held) words(:i - 1), value, words(i + 1:)
    read (file, rec=held) words
  end subroutine put4

  ! Writes an Integer*8 likewise; across the end of a record no write goes, and it is put there as two words.
  subroutine put8(record, word, value)
    integer(8), intent(in) :: record, word, value
    integer(8) :: i
    call reach(record, word, i)
    if (i == own%reclen) then
      call put_halves(record, word, signed(ishft(value, -32)), signed(iand(value, low_half)))
    else
      write (file, rec=held) words(:i - 1), value, words(i + 2:)
      read (file, rec=held) words
    end if
  end subroutine put8

  ! Writes the halves of an Integer*8: in the big order the high one comes first, in the little order the low one.
  subroutine put_halves(record, word, high, low)
    integer(8), intent(in) :: record, word
    integer(4), intent(in) :: high, low
    call put4(record, word, merge(high, low, order == 1))
    call put4(record, word + 1, merge(low, high, order == 1))
  end subroutine put_halves

  ! The Integer*4 that has the bits of a number below 2**32.
  pure function signed(bits)
    integer(8), intent(in) :: bits
    integer(4) :: signed
    signed = int(merge(bits - 2_8**32, bits, bits >= 2_8**31), 4)
  end function signed

  ! Moves the next free place by so many words.
  subroutine go_on(by)
    integer(8), intent(in) :: by
    nextword = nextword + by
    nextrec = nextrec + (nextword - 1) / own%reclen
    nextword = mod(nextword - 1, int(own%reclen, 8)) + 1
  end subroutine go_on

  ! The capacity of extension k: lex1 * gex**(k-1) / 10**(k-1) exactly, the fraction dropped once.
  pure function capacity_of(k)
    integer(4), intent(in) :: k
    integer(8) :: capacity_of
    capacity_of = int(own%lex1 * int(own%gex, 16)**(k - 1) / 10_16**(k - 1), 8)
  end function capacity_of

  ! Begins an extension at the next whole record, with room for all its indexes.
  subroutine add_extension
    integer(8) :: area
    nex = nex + 1
    capacity = capacity_of(nex)
    used = 0
    if (nextword > 1) call go_on(own%reclen - nextword + 1)
    aex(nex) = nextrec
    area = (capacity * own%lind + own%reclen - 1) / own%reclen
    call go_on(area * own%reclen)
    call hold(nextrec - 1)
  end subroutine add_extension

  ! Writes the bytes of an application's word, and says so.
  subroutine put_made(record, word, text)
    integer(8), intent(in) :: record, word
    integer, intent(in) :: text
    integer :: i
    character(4) :: bytes
    made = made + 1
    do i = 1, 4
      bytes(i:i) = char(mod(made * 2654435761_8 / 256_8**(i - 1), 256_8))
    end do
    call put(record, word, bytes)
    write (text, '(4z2.2)') (ichar(bytes(i:i)), i = 1, 4)
  end subroutine put_made

  ! Writes an entry at the next free place, and its index. Without data adata means nothing and is some large number.
  subroutine write_entry
    integer(4) :: nsec, msec, version
    integer(8) :: ldata, adata, nword, i
    integer(8), allocatable :: lengths(:), addresses(:)
    nsec = merge(own%most, int(mod(ient, own%most + 1_8), 4), ient == 2)
    msec = nsec + merge(4, 0, mod(ient, 4_8) == 3)
    ldata = mod(7 * ient, 11_8)
    lengths = [(1 + mod(3 * i + ient, 5_8), i = 1, nsec)]
    call place_parts(msec, lengths, ldata, addresses, adata, nword)
    if (ldata == 0) adata = spread8
    version = int(spread4 * (3 - ient), 4)
    call put(nextrec, nextword, entry_code)
    call put4(nextrec, nextword + 1, version)
    call put4(nextrec, nextword + 2, nsec)
    call put8(nextrec, nextword + 3, nword)
    call put8(nextrec, nextword + 5, adata)
    call put8(nextrec, nextword + 7, ldata)
    call put8(nextrec, nextword + 9, ient)
    call tell_numbers(version, adata)
    call write_sections(nsec, lengths, addresses)
    call write_part('data_' // decimal(ient), adata, ldata)
    call write_index
    write (listing, '(i0, 5(1x, i0))') ient, nextrec, nextword, nword, nsec, ldata
    call go_on(nword)
  end subroutine write_entry

  ! Says the numbers of the entry that the listing has not.
  subroutine tell_numbers(version, adata)
    integer(4), intent(in) :: version
    integer(8), intent(in) :: adata
    integer :: text
    text = told('numbers_' // decimal(ient))
    write (text, '(i0)') version, adata
    close (text)
  end subroutine tell_numbers

  ! Gives the sections and the data their addresses; the data comes behind the first section, if there is one.
  subroutine place_parts(msec, lengths, ldata, addresses, adata, nword)
    integer(4), intent(in) :: msec
    integer(8), intent(in) :: lengths(:), ldata
    integer(8), allocatable, intent(out) :: addresses(:)
    integer(8), intent(out) :: adata, nword
    integer(8) :: next
    integer :: i
    next = 12 + 5 * msec
    allocate (addresses(size(lengths)))
    do i = 1, size(lengths)
      if (i == 2) call place_part(next, ldata, adata)
      call place_part(next, lengths(i), addresses(i))
    end do
    if (size(lengths) < 2) call place_part(next, ldata, adata)
    nword = next - 1
  end subroutine place_parts

  ! Gives a part the next address, counted from 1 at the entry's first word; in every second entry a word is left free
  ! behind it. A part with no words has the address 0.
  subroutine place_part(next, length, address)
    integer(8), intent(inout) :: next
    integer(8), intent(in) :: length
    integer(8), intent(out) :: address
    address = 0
    if (length == 0) return
    address = next
    next = next + length + mod(ient, 2_8)
  end subroutine place_part

  ! Writes the sections of the entry at the next free place, with their identifiers, lengths and addresses.
  subroutine write_sections(nsec, lengths, addresses)
    integer(4), intent(in) :: nsec
    integer(8), intent(in) :: lengths(:), addresses(:)
    integer(8) :: i, identifier
    do i = 1, nsec
      identifier = spread4 * (40 * ient - 23 * i)
      call put4(nextrec, nextword + 10 + i, int(identifier, 4))
      call put8(nextrec, nextword + 9 + nsec + 2 * i, lengths(i))
      call put8(nextrec, nextword + 9 + 3 * nsec + 2 * i, addresses(i))
      call write_part('section_' // decimal(ient) // '_' // decimal(identifier), addresses(i), lengths(i))
    end do
  end subroutine write_sections

  ! Writes made words at an address of the entry at the next free place.
  subroutine write_part(question, address, length)
    character(*), intent(in) :: question
    integer(8), intent(in) :: address, length
    integer(8) :: i
    integer :: text
    text = told(question)
    do i = 0, length - 1
      call put_made(nextrec, nextword + address - 1 + i, text)
    end do
    close (text)
  end subroutine write_part

  ! Writes the index of the entry at the next free place.
  subroutine write_index
    integer(8) :: offset, i
    integer :: text
    offset = used * own%lind
    used = used + 1
    call put8(aex(nex), offset + 1, nextrec)
    call put4(aex(nex), offset + 3, int(nextword, 4))
    text = told('index_' // decimal(ient))
    do i = 4, own%lind
      call put_made(aex(nex), offset + i, text)
    end do
    close (text)
  end subroutine write_index

  ! Writes the file descriptor, and says what it holds.
  subroutine write_descriptor
    integer(8) :: i
    integer :: text
    call put(1_8, 1_8, file_codes(order))
    call put4(1_8, 2_8, own%reclen)
    call put4(1_8, 3_8, own%kind)
    call put4(1_8, 4_8, own%vind)
    call put4(1_8, 5_8, own%lind)
    call put4(1_8, 6_8, own%flags)
    call put8(1_8, 7_8, own%entries + 1)
    call put8(1_8, 9_8, nextrec)
    call put4(1_8, 11_8, int(nextword, 4))
    call put4(1_8, 12_8, own%lex1)
    call put4(1_8, 13_8, nex)
    call put4(1_8, 14_8, own%gex)
    do i = 1, nex
      call put8(1_8, 13 + 2 * i, aex(i))
    end do
    text = told('descriptor')
    write (text, '(i0)') order, own%reclen, own%kind, own%vind, own%lind, own%flags, own%entries + 1, nextrec, &
      nextword, own%lex1, nex, own%gex
    if (nex > 0) write (text, '(i0)') aex(1:nex)
    close (text)
  end subroutine write_descriptor
end program writer
