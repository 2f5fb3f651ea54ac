#!/usr/bin/env bash
# Boots the systemd of a Debian system in a folder, apart from this machine: it runs until the script is killed.
#
#     packaging/boot.sh ROOT SCRATCH
#
# ROOT isn't changed: what is written lies in the folder SCRATCH/upper. Its network is its own loopback. Run it as root, by
#
#     unshare --mount --pid --fork --kill-child --uts --ipc --net --cgroup packaging/boot.sh ROOT SCRATCH
set -eu
scratch=$(realpath "$2") root=$scratch/root
mkdir -p "$scratch/upper" "$scratch/work" "$root"
mount --make-rprivate /
mount -t overlay overlay -o "lowerdir=$(realpath "$1"),upperdir=$scratch/upper,workdir=$scratch/work" "$root"
mount -t proc proc "$root/proc"
# what the kernel is set to stays this machine's
mount --bind "$root/proc/sys" "$root/proc/sys"
mount -o remount,bind,ro "$root/proc/sys"
mount -t sysfs -o ro sysfs "$root/sys"
mount -t cgroup2 cgroup2 "$root/sys/fs/cgroup"
mount -t tmpfs -o mode=755 tmpfs "$root/run"
mount -t tmpfs -o mode=755 tmpfs "$root/dev"
for device in null zero full random urandom tty; do
    touch "$root/dev/$device"
    mount --bind "/dev/$device" "$root/dev/$device"
done
mkdir "$root/dev/pts" "$root/dev/shm"
mount -t devpts -o newinstance,ptmxmode=0666,mode=620,gid=5 devpts "$root/dev/pts"
mount -t tmpfs -o mode=1777 tmpfs "$root/dev/shm"
ln -s pts/ptmx "$root/dev/ptmx"
ln -s /proc/self/fd "$root/dev/fd"
for at in 0:stdin 1:stdout 2:stderr; do
    ln -s "fd/${at%:*}" "$root/dev/${at#*:}"
done
cd "$root"
mkdir -p mnt
pivot_root . mnt
umount -l /mnt
exec env -i container=other PATH=/usr/sbin:/usr/bin:/sbin:/bin /lib/systemd/systemd < /dev/null
