! A night in Fortran: prints the suite of the grammar file that its argument names, or that standard input has.
!
!     gfortran examples/vanchiluk.f90 examples/night.f90 crates/calls/out/libcalls.a -o night && ./night decks/deck.packed
program night
    use, intrinsic :: iso_c_binding, only: c_int8_t, c_int16_t, c_int64_t, c_size_t
    use vanchiluk
    implicit none

    ! one octet more than the longest file, so that a longer one is seen to be
    integer(c_int8_t) :: file(vanchiluk_most_octets + 1)
    integer(c_int16_t) :: words(vanchiluk_most_words), table(vanchiluk_most_table)
    integer(c_int8_t) :: marks(vanchiluk_most_rules)
    integer(c_int16_t) :: sentence(vanchiluk_most_numbers), derivation(vanchiluk_most_numbers)
    integer(c_int64_t) :: answer(4)
    integer(c_size_t) :: octets, word_count, table_count, rules
    integer :: sentences

    call read_file()

    call vanchiluk_unpack(file, octets, words, vanchiluk_most_words, answer)
    if (answer(1) == vanchiluk_refused) call stop_refused()
    word_count = answer(2)

    call vanchiluk_tables(words, word_count, table, vanchiluk_most_table, answer)
    if (answer(1) == vanchiluk_refused) call stop_refused()
    table_count = answer(2)
    rules = table_count - 5 * words(1)
    write (*, '(a, 3(1x, i0))') 'suite', words(1), words(2), rules

    marks = 0
    sentences = 0
    do
        call vanchiluk_next(words, word_count, table, table_count, marks, rules, sentence, vanchiluk_most_numbers, &
            derivation, vanchiluk_most_numbers, answer)
        if (answer(1) /= vanchiluk_next_sentence) exit
        write (*, '(i0, *(1x, i0))') answer(2), answer(3), sentence(:answer(3)), answer(4), derivation(:answer(4))
        sentences = sentences + 1
    end do
    if (answer(1) == vanchiluk_refused) call stop_refused()
    write (*, '(a, 1x, i0)') 'end', sentences

contains

    subroutine read_file()
        character(4096) :: path
        integer :: unit, status

        path = '/dev/stdin'
        if (command_argument_count() > 0) call get_command_argument(1, path)
        open (newunit=unit, file=trim(path), access='stream', form='unformatted', status='old', action='read')
        octets = 0
        do while (octets < size(file))
            read (unit, iostat=status) file(octets + 1)
            if (status /= 0) exit
            octets = octets + 1
        end do
        close (unit)
    end subroutine

    subroutine stop_refused()
        write (*, '(a, 2(1x, i0))') 'refused', answer(2), answer(3)
        stop
    end subroutine
end program
