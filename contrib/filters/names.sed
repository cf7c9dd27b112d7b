# For: what pages of mdoc(7) have by name: libraries (Lb), standards (St), versions of AT&T UNIX (At), lp and rp; and Rv without a function's name.
# Needs: any sed.
# Use: LC_ALL=C sed -f names.sed PAGE | mandoc

# Parentheses of functions' types
/^\.[[:blank:]]*Dd[[:blank:]]/ a\
.ds lp (\
.ds rp )

# Libraries: each row puts a title behind a name, and the last three make one argument of both
/^\.[[:blank:]]*Lb[[:blank:]]/ {
s/\([[:blank:]]\)\(lib[A-Za-z0-9_+-]*\)/\1<\2>/g
s/<libarm>/<libarm=ARM Architecture Library>/
s/<libarm32>/<libarm32=ARM32 Architecture Library>/
s/<libbluetooth>/<libbluetooth=Bluetooth Library>/
s/<libbsm>/<libbsm=Basic Security Module Library>/
s/<libc>/<libc=Standard C Library>/
s/<libc_r>/<libc_r=Reentrant C Library>/
s/<libcalendar>/<libcalendar=Calendar Arithmetic Library>/
s/<libcam>/<libcam=Common Access Method User Library>/
s/<libcdk>/<libcdk=Curses Development Kit Library>/
s/<libcipher>/<libcipher=FreeSec Crypt Library>/
s/<libcompat>/<libcompat=Compatibility Library>/
s/<libcrypt>/<libcrypt=Crypt Library>/
s/<libcurses>/<libcurses=Curses Library>/
s/<libdevinfo>/<libdevinfo=Device and Resource Information Utility Library>/
s/<libdevstat>/<libdevstat=Device Statistics Library>/
s/<libdisk>/<libdisk=Interface to Slice and Partition Labels Library>/
s/<libdwarf>/<libdwarf=DWARF Access Library>/
s/<libedit>/<libedit=Command Line Editor Library>/
s/<libelf>/<libelf=ELF Access Library>/
s/<libevent>/<libevent=Event Notification Library>/
s/<libfetch>/<libfetch=File Transfer Library>/
s/<libform>/<libform=Curses Form Library>/
s/<libgeom>/<libgeom=Userland API Library for Kernel GEOM subsystem>/
s/<libi386>/<libi386=i386 Architecture Library>/
s/<libintl>/<libintl=Internationalized Message Handling Library>/
s/<libipsec>/<libipsec=IPsec Policy Control Library>/
s/<libiscsi>/<libiscsi=iSCSI protocol library>/
s/<libjail>/<libjail=Jail Library>/
s/<libkiconv>/<libkiconv=Kernel-side iconv Library>/
s/<libkse>/<libkse=N:M Threading Library>/
s/<libkvm>/<libkvm=Kernel Data Access Library>/
s/<libm>/<libm=Math Library>/
s/<libm68k>/<libm68k=m68k Architecture Library>/
s/<libmagic>/<libmagic=Magic Number Recognition Library>/
s/<libmd>/<libmd=Message Digest (MD4, MD5, etc.) Support Library>/
s/<libmemstat>/<libmemstat=Kernel Memory Allocator Statistics Library>/
s/<libmenu>/<libmenu=Curses Menu Library>/
s/<libnetgraph>/<libnetgraph=Netgraph User Library>/
s/<libnetpgp>/<libnetpgp=Netpgp Signing, Verification, Encryption and Decryption>/
s/<libnv>/<libnv=Name\/value pairs library>/
s/<libossaudio>/<libossaudio=OSS Audio Emulation Library>/
s/<libpam>/<libpam=Pluggable Authentication Module Library>/
s/<libpcap>/<libpcap=Packet capture Library>/
s/<libpci>/<libpci=PCI Bus Access Library>/
s/<libpmc>/<libpmc=Performance Counters Library>/
s/<libposix>/<libposix=POSIX Compatibility Library>/
s/<libprop>/<libprop=Property Container Object Library>/
s/<libpthread>/<libpthread=POSIX Threads Library>/
s/<libpuffs>/<libpuffs=puffs Convenience Library>/
s/<librefuse>/<librefuse=File System in Userspace Convenience Library>/
s/<libresolv>/<libresolv=DNS Resolver Library>/
s/<librpcsec_gss>/<librpcsec_gss=RPC GSS-API Authentication Library>/
s/<librpcsvc>/<librpcsvc=RPC Service Library>/
s/<librt>/<librt=POSIX Real-time Library>/
s/<libsdp>/<libsdp=Bluetooth Service Discovery Protocol User Library>/
s/<libssp>/<libssp=Buffer Overflow Protection Library>/
s/<libtermcap>/<libtermcap=Termcap Access Library>/
s/<libterminfo>/<libterminfo=Terminal Information Library>/
s/<libthr>/<libthr=1:1 Threading Library>/
s/<libufs>/<libufs=UFS File System Access Library>/
s/<libugidfw>/<libugidfw=File System Firewall Interface Library>/
s/<libulog>/<libulog=User Login Record Library>/
s/<libusbhid>/<libusbhid=USB Human Interface Devices Library>/
s/<libutil>/<libutil=System Utilities Library>/
s/<libvgl>/<libvgl=Video Graphics Library>/
s/<libx86_64>/<libx86_64=x86_64 Architecture Library>/
s/<libz>/<libz=Compression Library>/
s/<lib\([A-Za-z0-9_]*\)=\([^>]*\)>/"\2 (lib\1, -l\1)"/g
s/<\(lib[A-Za-z0-9_+-]*\)>$/"library \\(lq\1\\(rq"/
s/<\(lib[A-Za-z0-9_+-]*\)>/\1/g
}

# Standards, also in the line of another macro
/^\.\(.*[[:blank:]]\)\{0,1\}St[[:blank:]]\{1,\}-/ {
s/\([.[:blank:]]St[[:blank:]]\{1,\}\)\(-[^[:blank:]]*\)/\1<\2>/
s/<-ansiC>/"ANSI X3.159-1989 (\\(lqANSI C89\\(rq)"/
s/<-ansiC-89>/"ANSI X3.159-1989 (\\(lqANSI C89\\(rq)"/
s/<-ieee754>/"IEEE Std 754-1985"/
s/<-iso8601>/"ISO 8601"/
s/<-iso8802-3>/"ISO 8802-3: 1989"/
s/<-iso9945-1-90>/"ISO\/IEC 9945-1:1990 (\\(lqPOSIX.1\\(rq)"/
s/<-iso9945-1-96>/"ISO\/IEC 9945-1:1996 (\\(lqPOSIX.1\\(rq)"/
s/<-iso9945-2-93>/"ISO\/IEC 9945-2:1993 (\\(lqPOSIX.2\\(rq)"/
s/<-isoC>/"ISO\/IEC 9899:1990 (\\(lqISO C90\\(rq)"/
s/<-isoC-2011>/"ISO\/IEC 9899:2011 (\\(lqISO C11\\(rq)"/
s/<-isoC-90>/"ISO\/IEC 9899:1990 (\\(lqISO C90\\(rq)"/
s/<-isoC-99>/"ISO\/IEC 9899:1999 (\\(lqISO C99\\(rq)"/
s/<-p1003\.1>/"IEEE Std 1003.1 (\\(lqPOSIX.1\\(rq)"/
s/<-p1003\.1-2001>/"IEEE Std 1003.1-2001 (\\(lqPOSIX.1\\(rq)"/
s/<-p1003\.1-2004>/"IEEE Std 1003.1-2004 (\\(lqPOSIX.1\\(rq)"/
s/<-p1003\.1-2008>/"IEEE Std 1003.1-2008 (\\(lqPOSIX.1\\(rq)"/
s/<-p1003\.1-88>/"IEEE Std 1003.1-1988 (\\(lqPOSIX.1\\(rq)"/
s/<-p1003\.1-90>/"IEEE Std 1003.1-1990 (\\(lqPOSIX.1\\(rq)"/
s/<-p1003\.1-96>/"ISO\/IEC 9945-1:1996 (\\(lqPOSIX.1\\(rq)"/
s/<-p1003\.1b-93>/"IEEE Std 1003.1b-1993 (\\(lqPOSIX.1b\\(rq)"/
s/<-p1003\.1c-95>/"IEEE Std 1003.1c-1995 (\\(lqPOSIX.1c\\(rq)"/
s/<-p1003\.1g-2000>/"IEEE Std 1003.1g-2000 (\\(lqPOSIX.1g\\(rq)"/
s/<-p1003\.1i-95>/"IEEE Std 1003.1i-1995 (\\(lqPOSIX.1i\\(rq)"/
s/<-p1003\.2>/"IEEE Std 1003.2 (\\(lqPOSIX.2\\(rq)"/
s/<-p1003\.2-92>/"IEEE Std 1003.2-1992 (\\(lqPOSIX.2\\(rq)"/
s/<-p1003\.2a-92>/"IEEE Std 1003.2a-1992 (\\(lqPOSIX.2\\(rq)"/
s/<-susv2>/"Version 2 of the Single UNIX Specification (\\(lqSUSv2\\(rq)"/
s/<-susv3>/"Version 3 of the Single UNIX Specification (\\(lqSUSv3\\(rq)"/
s/<-susv4>/"Version 4 of the Single UNIX Specification (\\(lqSUSv4\\(rq)"/
s/<-svid4>/"System V Interface Definition, Fourth Edition (\\(lqSVID4\\(rq)"/
s/<-xbd5>/"X\/Open Base Definitions Issue 5 (\\(lqXBD5\\(rq)"/
s/<-xcu5>/"X\/Open Commands and Utilities Issue 5 (\\(lqXCU5\\(rq)"/
s/<-xcurses4\.2>/"X\/Open Curses Issue 4, Version 2 (\\(lqXCURSES4.2\\(rq)"/
s/<-xns5>/"X\/Open Networking Services Issue 5 (\\(lqXNS5\\(rq)"/
s/<-xns5\.2>/"X\/Open Networking Services Issue 5.2 (\\(lqXNS5.2\\(rq)"/
s/<-xpg3>/"X\/Open Portability Guide Issue 3 (\\(lqXPG3\\(rq)"/
s/<-xpg4>/"X\/Open Portability Guide Issue 4 (\\(lqXPG4\\(rq)"/
s/<-xpg4\.2>/"X\/Open Portability Guide Issue 4, Version 2 (\\(lqXPG4.2\\(rq)"/
s/<-xsh5>/"X\/Open System Interfaces and Headers Issue 5 (\\(lqXSH5\\(rq)"/
s/\([.[:blank:]]St[[:blank:]]\{1,\}\)<\(-[^[:blank:]]*\)>/\1\2/
}

# Versions of AT&T UNIX
/^\.[[:blank:]]*At\([[:blank:]].*\)\{0,1\}$/ {
s/At[[:blank:]]*$/At "AT\&T UNIX"/
s/At[[:blank:]]\{1,\}\([^"[:blank:]]\{1,\}\)/At <\1>/
s/<v1>/"Version 1 AT\&T UNIX"/
s/<v2>/"Version 2 AT\&T UNIX"/
s/<v3>/"Version 3 AT\&T UNIX"/
s/<v4>/"Version 4 AT\&T UNIX"/
s/<v5>/"Version 5 AT\&T UNIX"/
s/<v6>/"Version 6 AT\&T UNIX"/
s/<v7>/"Version 7 AT\&T UNIX"/
s/<32v>/"Version 7 AT\&T UNIX\/32V"/
s/<III>/"AT\&T System III UNIX"/
s/<V>/"AT\&T System V UNIX"/
s/<V\.1>/"AT\&T System V Release 1 UNIX"/
s/<V\.2>/"AT\&T System V Release 2 UNIX"/
s/<V\.3>/"AT\&T System V Release 3 UNIX"/
s/<V\.4>/"AT\&T System V Release 4 UNIX"/
s/<\([^<>]*\)>/\1/
}

s/^\.[[:blank:]]*Rv[[:blank:]]*-std[[:blank:]]*$/Upon successful completion, the value 0 is returned;\
otherwise the value \\-1 is returned and the global variable errno is set to indicate the error./
