FROM --platform=linux/amd64 docker.io/library/debian:stable-slim
COPY dist/abel dist/abel-page dist/abel-fuses /usr/local/bin/
WORKDIR /work
