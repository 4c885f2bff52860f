# Ends with 3 where what came was cut off: the last line has to be empty, and is written only by what has ended well.

$0 == "" { is_whole = 1; next }

END { if (!is_whole) exit 3 }
