# An image with one server: `make image` builds it, of what the tarball of `make dist` holds.
#
# The data file is $DATA, of $SECTORS sectors of 512 bytes, which is made before the first start; the volume /data must keep what was synced. The tools
# of dist/ are in the image, too: `podman exec NAME ssikvd-probe 127.0.0.1:7777`.
ARG BASE=docker.io/library/debian:12-slim
FROM ${BASE}
RUN apt-get update && apt-get install -y --no-install-recommends iproute2 python3 tini && rm -rf /var/lib/apt/lists/* \
    && install -d -m 700 -o 65534 -g 65534 /data
COPY bin/ssikvd dist/ssikvd-before dist/ssikvd-compact dist/ssikvd-export dist/ssikvd-follow dist/ssikvd-load dist/ssikvd-probe dist/ssikvd-restore \
    dist/ssikvd-salvage dist/ssikvd-ship dist/ssikvd-stat dist/ssikvd-used dist/ssikvd-verify dist/ssikvd-watch dist/ssikvd-why /usr/local/bin/
VOLUME /data
EXPOSE 7777
USER 65534
ENV DATA=/data/shop.data SECTORS=4194304 LISTEN=0.0.0.0:7777
# Process 1 is tini, since Linux applies no signal's default action to process 1.
ENTRYPOINT ["tini", "--", "sh", "-c"]
CMD ["ssikvd-before \"$DATA\" \"$SECTORS\" && exec flock -n -F -E 75 \"$DATA.lock\" ssikvd serve --data \"$DATA\" --listen \"$LISTEN\""]
