# Sets `program` to the program that is proved and built of these sources, or to PROGRAM where that is set; says so and ends where there is none,
# since the program that is not proved is built otherwise and its times mean nothing. It is sourced by the scripts that time, with `top` set.
if [ -n "${PROGRAM:-}" ]; then
    program=$PROGRAM
else
    program=$("$top/s3db" version | sed -n 's/^proved program: //p')
fi
if [ ! -x "$program" ]; then
    echo "nothing is timed: no proved program of these sources stands here; S3DB=prove ./s3db replay </dev/null makes it" >&2
    exit 1
fi
