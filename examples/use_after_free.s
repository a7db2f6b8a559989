// A block is freed: its granules get another tag, and a stale pointer no longer matches them.

// four granules at 0x1000; tag 0 is excluded, so that untagged pointers match no block
base=0000000000001000
granules=0004
access=1
exclude=0001
seed=0000
// X0 points to the block, with tag 5
x0=0500000000001000
x1=0000000000000000
x2=0000000000000000
sp=0000000000000000

// the block of two granules gets tag 5, and its data is zeroed
stz2g x0, [x0]
// it is freed: X1 points to it with the next tag, 6, and the block gets that
addg x1, x0, #0, #1
st2g x1, [x1]
// through the stale pointer X0 tag 6 is loaded, where X0 has tag 5
ldg x2, [x0]
