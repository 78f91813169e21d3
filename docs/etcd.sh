#!/bin/sh
# Starts an etcd of three members on this machine, at the ports 23711, 23712 and 23713, with its data below /tmp.
all=a=http://127.0.0.1:2381,b=http://127.0.0.1:2382,c=http://127.0.0.1:2383
for n in 1 2 3; do
    name=$(echo abc | cut -c$n) own=http://127.0.0.1:2371$n peer=http://127.0.0.1:238$n
    etcd --name $name --data-dir /tmp/etcd-$name --initial-cluster $all --listen-client-urls $own --advertise-client-urls $own \
        --listen-peer-urls $peer --initial-advertise-peer-urls $peer > /tmp/etcd-$name.log 2>&1 &
done
sleep 3
