"""Certificates for the scenarios with TLS, made by openssl for one run of the kit."""
import os
import shutil
import ssl
import subprocess

HOST = "subjectAltName=DNS:localhost,IP:127.0.0.1"
OTHER = "subjectAltName=DNS:ledger.example"


def made(folder):
    """The paths of certificates and keys by name, or nothing if there is no openssl."""
    if not shutil.which("openssl"):
        return {}
    paths = {}
    for authority in ("ca", "other_ca"):
        key, path = (os.path.join(folder, f"{authority}.{it}") for it in ("key", "pem"))
        run("req", "-x509", *new_key(key), "-days", "2", "-subj", f"/CN={authority}", "-out", path)
        paths[authority], paths[f"{authority}_key"] = path, key
    sign(folder, paths, "server", HOST, "2")
    sign(folder, paths, "other_host", OTHER, "2")
    sign(folder, paths, "client", "extendedKeyUsage=clientAuth", "2")
    sign(folder, paths, "stranger", HOST, "2", by="other_ca")
    sign(folder, paths, "expired", HOST, None)
    return paths


def new_key(path):
    return ("-newkey", "ec", "-pkeyopt", "ec_paramgen_curve:prime256v1", "-nodes", "-keyout", path)


def run(*words):
    subprocess.run(["openssl", *words], check=True, capture_output=True)


def sign(folder, paths, name, extension, days, by="ca"):
    key, request, path, more = (
        os.path.join(folder, f"{name}.{it}") for it in ("key", "csr", "pem", "ext")
    )
    run("req", *new_key(key), "-subj", f"/CN={name}", "-out", request)
    with open(more, "w") as it:
        it.write(extension + "\n")
    valid = ["-days", days] if days else ["-days", "-1"]
    signer = ["-CA", paths[by], "-CAkey", paths[f"{by}_key"], "-CAcreateserial"]
    run("x509", "-req", "-in", request, *signer, *valid, "-extfile", more, "-out", path)
    paths[name], paths[f"{name}_key"] = path, key


def server_context(paths, kind):
    """How a server speaks TLS: with a certificate, and perhaps only with clients that have one."""
    if kind is None:
        return None
    context = ssl.SSLContext(ssl.PROTOCOL_TLS_SERVER)
    context.load_cert_chain(paths[kind["cert"]], paths[f"{kind['cert']}_key"])
    if kind.get("clients"):
        context.verify_mode = ssl.CERT_REQUIRED
        context.load_verify_locations(paths["ca"])
    if kind.get("version"):
        context.maximum_version = getattr(ssl.TLSVersion, kind["version"])
    return context
