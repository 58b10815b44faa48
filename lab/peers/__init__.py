"""What speaks to the gateway: the octets of each protocol, and scripted parties that send and hear them. Nothing here knows the other two folders."""
