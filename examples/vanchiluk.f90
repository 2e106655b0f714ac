! The five calls for Fortran: an interface block for each. Slices pass as an array and a count of its elements, answers as four
! 64-bit integers: the kind, then its values, then zeros (include/vanchiluk.h says which).
!
! Fortran has no unsigned integers: a word above 32767, such as the 65535 in a table's row of the start, reads as a negative
! one. Tokens and rule numbers are never so large.
module vanchiluk
    use, intrinsic :: iso_c_binding, only: c_int8_t, c_int16_t, c_int64_t, c_size_t
    implicit none

    integer(c_int64_t), parameter :: vanchiluk_done = 0, vanchiluk_next_sentence = 1, vanchiluk_finished = 2, &
        vanchiluk_refused = 3
    ! room that is always enough
    integer(c_size_t), parameter :: vanchiluk_most_words = 8707, vanchiluk_most_octets = 17417, vanchiluk_most_rules = 256, &
        vanchiluk_most_table = 896, vanchiluk_most_numbers = 4096, vanchiluk_most_replayed = 131072

    interface
        subroutine vanchiluk_unpack(file, file_octets, words, words_room, answer) bind(C)
            import
            integer(c_int8_t), intent(in) :: file(*)
            integer(c_size_t), value :: file_octets
            integer(c_int16_t), intent(inout) :: words(*)
            integer(c_size_t), value :: words_room
            integer(c_int64_t), intent(out) :: answer(4)
        end subroutine

        subroutine vanchiluk_pack(words, words_count, file, file_room, answer) bind(C)
            import
            integer(c_int16_t), intent(in) :: words(*)
            integer(c_size_t), value :: words_count
            integer(c_int8_t), intent(inout) :: file(*)
            integer(c_size_t), value :: file_room
            integer(c_int64_t), intent(out) :: answer(4)
        end subroutine

        subroutine vanchiluk_tables(words, words_count, table, table_room, answer) bind(C)
            import
            integer(c_int16_t), intent(in) :: words(*)
            integer(c_size_t), value :: words_count
            integer(c_int16_t), intent(inout) :: table(*)
            integer(c_size_t), value :: table_room
            integer(c_int64_t), intent(out) :: answer(4)
        end subroutine

        subroutine vanchiluk_next(words, words_count, table, table_count, marks, marks_count, sentence, sentence_room, &
            derivation, derivation_room, answer) bind(C)
            import
            integer(c_int16_t), intent(in) :: words(*)
            integer(c_size_t), value :: words_count
            integer(c_int16_t), intent(in) :: table(*)
            integer(c_size_t), value :: table_count
            integer(c_int8_t), intent(inout) :: marks(*)
            integer(c_size_t), value :: marks_count
            integer(c_int16_t), intent(inout) :: sentence(*)
            integer(c_size_t), value :: sentence_room
            integer(c_int16_t), intent(inout) :: derivation(*)
            integer(c_size_t), value :: derivation_room
            integer(c_int64_t), intent(out) :: answer(4)
        end subroutine

        subroutine vanchiluk_replay(words, words_count, list, list_count, sentence, sentence_room, answer) bind(C)
            import
            integer(c_int16_t), intent(in) :: words(*)
            integer(c_size_t), value :: words_count
            integer(c_int16_t), intent(in) :: list(*)
            integer(c_size_t), value :: list_count
            integer(c_int16_t), intent(inout) :: sentence(*)
            integer(c_size_t), value :: sentence_room
            integer(c_int64_t), intent(out) :: answer(4)
        end subroutine
    end interface
end module
