"""What `pcap2trace` and `trace2pcap` are made of.

outside   words, the file that comes in, the result that goes out. `rfc5053tables` stands on it too
trace     packet traces
files     capture files: pcap and pcapng
frames    the UDP datagram in a captured frame
"""
