# The larger of two numbers is the status: mend the branch.
# exit: 42
.globl _start
_start: li   a1, 17
        li   a2, 42
        mv   a0, a1
        bgt  a1, a2, done       # which way round?
        j    done
        mv   a0, a2
done:   li   a7, 93
        ecall
