# The release on Debian 12, and nothing else:
#   docker build -t palvumiose . && docker run -i --rm palvumiose check < document.json
# No image was built where this was written, as no engine ran there.
FROM --platform=linux/amd64 debian:12-slim
COPY release/palvumiose-x86_64-linux /usr/local/bin/palvumiose
COPY LICENSE release/NOTICES /usr/share/doc/palvumiose/
USER 65534:65534
ENTRYPOINT ["/usr/local/bin/palvumiose"]
