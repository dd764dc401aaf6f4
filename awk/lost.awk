# Ends with 0 where more than a tenth of a page's rows has characters that could not be shown, and stand as <U+540D>.
/<U\+[0-9A-F]+>/ { lost++ }
END { exit lost * 10 <= NR }
