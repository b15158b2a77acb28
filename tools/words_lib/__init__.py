"""The parts of tools/words: layout, floats, reading (text to tables, words), printing (words to text), sheet, check, source."""
