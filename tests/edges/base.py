"""What the cases share."""
import pcep

# the Open of a router whose KeepaliveTimer is a second, and its DeadTimer two
HASTY = pcep.opening(1, 2)
