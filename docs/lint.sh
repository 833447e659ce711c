#!/bin/sh
# Counts how long the sentences of the documents are: on average at most 25 words a page, none above 50, and no cell of a table above 40. A piece of
# code counts as one word; code blocks and headings are not read. Each sentence or cell that is too long is printed with its file and line, and the
# status is then 1.
# usage: docs/lint.sh [FILE..]; with no file, README.md and the pages of docs/
top=$(CDPATH='' cd -- "$(dirname -- "$0")/.." && pwd) || exit 1
cd "$top" || exit 1
[ "$#" != 0 ] || set -- README.md docs/*.md

awk '
  function report(line, what, count, most, text) {
    printf "%s:%d: %s of %d words, and %d are the most: %s\n", page, line, what, count, most, substr(text, 1, 100)
    faults++
  }

  # the words of a text: code and links to pages count as one each
  function words(text, parts) {
    gsub(/`[^`]*`/, "code", text)
    gsub(/\]\([^)]*\)/, "]", text)
    gsub(/[|*_]/, " ", text)
    # what has no letter and no digit is no word
    gsub(/(^| )[^A-Za-z0-9 ]+( |$)/, " ", text)
    gsub(/^ +| +$/, "", text)
    return split(text, parts, / +/)
  }

  # ends a paragraph: its sentences end with a full stop, a question mark or an exclamation mark before a space
  function end_paragraph(rest, place, sentence, count) {
    rest = paragraph " "
    gsub(/`[^`]*`/, "code", rest)
    while (match(rest, /[.?!][)"*_]*( |$)/)) {
      place = RSTART + RLENGTH
      sentence = substr(rest, 1, place - 1)
      rest = substr(rest, place)
      count_sentence(sentence)
    }
    if (rest !~ /^ *$/) count_sentence(rest)
    paragraph = ""
  }

  function count_sentence(sentence, count) {
    count = words(sentence)
    if (count < 1) return
    sentences++
    total += count
    if (count > 50) report(begun, "a sentence", count, 50, sentence)
  }

  function end_page() {
    if (page == "") return
    end_paragraph()
    if (sentences > 0 && total / sentences > 25) {
      printf "%s: %.1f words a sentence on average, and 25 are the most\n", page, total / sentences
      faults++
    }
    if (averages) printf "%s: %d sentences of %.1f words\n", page, sentences, total / (sentences ? sentences : 1)
  }

  FNR == 1 { end_page(); page = FILENAME; sentences = total = in_code = 0; paragraph = "" }

  /^ *```/ { end_paragraph(); in_code = !in_code; next }
  in_code { next }
  /^ *$/ || /^#/ { end_paragraph(); next }

  /^ *\|/ {
    end_paragraph()
    text = $0
    # a bar in code, or behind a backslash, is part of its cell
    while (match(text, /`[^`]*`/)) text = substr(text, 1, RSTART - 1) "code" substr(text, RSTART + RLENGTH)
    gsub(/\\\|/, "/", text)
    many = split(text, cells, "|")
    for (i = 2; i < many; i++) {
      count = words(cells[i])
      if (count > 40) report(FNR, "a cell", count, 40, cells[i])
    }
    next
  }

  # a paragraph, or a piece of a list
  {
    if ($0 ~ /^ *([-*]|[0-9]+\.) /) {
      end_paragraph()
      sub(/^ *([-*]|[0-9]+\.) /, "")
    }
    if (paragraph == "") begun = FNR
    paragraph = paragraph (paragraph == "" ? "" : " ") $0
  }

  END { end_page(); if (faults > 0) { printf "%d too long\n", faults; exit 1 } }
' averages="${AVERAGES:-}" "$@"
