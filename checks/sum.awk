# Adds up what the parts of `checks/run` and `checks/all` said: the last line is `N passed, M failed`, and the status is 0 where
# M is 0 and N is not. A part ends with a line `N passed, M failed`, `status S` where S is not 0, and `end`; one that ends without
# counts has failed.
/^[0-9]+ passed, [0-9]+ failed$/ { passed = $1; failed = $3; counted = 1 }
/^status / { bad = 1 }
/^end$/ {
    p += counted ? passed : 0
    f += counted && (failed || !bad) ? failed : 1
    counted = 0; bad = 0
}
END { print p " passed, " f + 0 " failed"; exit f != 0 || p == 0 }
