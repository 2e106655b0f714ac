! The five calls from Fortran on D: a line for each, the four numbers of the answer and what was written.
program five
    use, intrinsic :: iso_c_binding, only: c_int8_t, c_int16_t, c_int64_t, c_size_t
    use vanchiluk
    implicit none

    integer(c_int16_t), parameter :: deck(23) = [integer(c_int16_t) :: 3, 4, 0, 0, 1, 1, 0, 3, 1, 3, 0, 1, 2, 2, 4, 1, 1, 5, &
        2, 0, 2, 1, 6]
    integer(c_int16_t), parameter :: derived(3) = [integer(c_int16_t) :: 0, 2, 4]
    integer(c_int8_t) :: file(60), marks(6)
    integer(c_int16_t) :: words(30), table(30), sentence(10), derivation(10)
    integer(c_int64_t) :: answer(4)

    file = 0
    words = 0
    table = 0
    sentence = 0
    derivation = 0
    marks = [integer(c_int8_t) :: 1, 0, 0, 0, 0, 0]

    call vanchiluk_pack(deck, 23_c_size_t, file, 60_c_size_t, answer)
    write (*, '(a, 4(1x, i0), a, *(1x, i0))') 'pack', answer, ' :', file(:answer(2))
    call vanchiluk_unpack(file, int(answer(2), c_size_t), words, 30_c_size_t, answer)
    write (*, '(a, 4(1x, i0), a, *(1x, i0))') 'unpack', answer, ' :', words(:answer(2))
    call vanchiluk_tables(words, 23_c_size_t, table, 30_c_size_t, answer)
    ! a word of a table as a number from 0 to 65535
    write (*, '(a, 4(1x, i0), a, *(1x, i0))') 'tables', answer, ' :', iand(int(table(:answer(2))), 65535)
    call vanchiluk_next(words, 23_c_size_t, table, 21_c_size_t, marks, 6_c_size_t, sentence, 10_c_size_t, derivation, &
        10_c_size_t, answer)
    write (*, '(a, 4(1x, i0), a)', advance='no') 'next', answer, ' :'
    write (*, '(*(:, 1x, i0))', advance='no') sentence(:answer(3))
    write (*, '(a, *(:, 1x, i0))', advance='no') ' :', derivation(:answer(4))
    write (*, '(a, *(1x, i0))') ' :', marks
    call vanchiluk_replay(words, 23_c_size_t, derived, 3_c_size_t, sentence, 10_c_size_t, answer)
    write (*, '(a, 4(1x, i0), a, *(1x, i0))') 'replay', answer, ' :', sentence(:answer(2))
    call vanchiluk_replay(words, 23_c_size_t, derived, 2_c_size_t, sentence, 10_c_size_t, answer)
    write (*, '(a, 4(1x, i0))') 'replay', answer
    call vanchiluk_replay(words, 23_c_size_t, derived, 3_c_size_t, sentence, 0_c_size_t, answer)
    write (*, '(a, 4(1x, i0))') 'replay', answer
end program
