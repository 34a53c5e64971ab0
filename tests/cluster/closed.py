"""An etcd that speaks only TLS, and knows its users by passwords."""
import ssl
import subprocess

from .processes import Cluster, until

SERVER, CLIENT = "server", "client"
PASSWORD = "a long password"


def certificates(folder):
    """An authority, and what it signed for the loopback interface and for a replica."""

    def openssl(*words):
        subprocess.run(["openssl", *words], check=True, capture_output=True, cwd=folder)

    key = ("-newkey", "ec", "-pkeyopt", "ec_paramgen_curve:prime256v1", "-nodes")
    openssl(
        *("req", "-x509", *key, "-keyout", "ca.key", "-out", "ca.crt", "-subj", "/CN=authority")
    )
    with open(f"{folder}/names", "w", encoding="utf-8") as file:
        file.write("subjectAltName=IP:127.0.0.1\n")
    for name in (SERVER, CLIENT):
        openssl(
            *("req", *key, "-keyout", f"{name}.key", "-out", f"{name}.csr", "-subj", f"/CN={name}")
        )
        openssl(
            *("x509", "-req", "-in", f"{name}.csr", "-CA", "ca.crt", "-CAkey", "ca.key"),
            *("-CAcreateserial", "-out", f"{name}.crt", "-extfile", "names"),
        )


def done(call, request):
    """Has etcd do something, again if it was too busy: then it may have been done already."""
    import grpc

    def is_done():
        try:
            call(request)
        except grpc.RpcError as error:
            return "already" in error.details()
        return True

    until(is_done, f"{type(request).__name__} is done")


class Closed(Cluster):
    """A cluster whose etcd requires certificates and passwords."""

    def __init__(self, folder, **options):
        certificates(folder)
        with open(f"{folder}/password", "w", encoding="utf-8") as file:
            file.write(f"{PASSWORD}\n")
        super().__init__(folder, **options)

    def _node(self, at):
        at = super()._node(at)
        serves = {"--listen-client-urls", "--advertise-client-urls"}
        words = [
            it.replace("http:", "https:") if before in serves else it
            for before, it in zip(["", *at], at)
        ]
        words += ["--cert-file", f"{self.folder}/server.crt"]
        words += ["--key-file", f"{self.folder}/server.key"]
        words += ["--client-cert-auth", "--trusted-ca-file", f"{self.folder}/ca.crt"]
        return words

    def files(self):
        given = [
            "--log-ca",
            f"{self.folder}/ca.crt",
            "--log-certificate",
            f"{self.folder}/client.crt",
        ]
        return [*given, "--log-key", f"{self.folder}/client.key"]

    def user(self, name="bank", password="password"):
        return ["--log-user", name, "--log-password-file", f"{self.folder}/{password}"]

    def replica_words(self, at, words, more=()):
        serves = ["--certificate", f"{self.folder}/server.crt", "--key"]
        serves += [f"{self.folder}/server.key", "--client-ca", f"{self.folder}/ca.crt"]
        return super().replica_words(at, words, [*self.files(), *self.user(), *serves, *more])

    def context(self):
        """What a client speaks TLS with."""
        found = ssl.create_default_context(cafile=f"{self.folder}/ca.crt")
        found.load_cert_chain(f"{self.folder}/client.crt", f"{self.folder}/client.key")
        return found

    def channel(self, port):
        import grpc

        read = []
        for name in ("ca.crt", "client.key", "client.crt"):
            with open(f"{self.folder}/{name}", "rb") as file:
                read.append(file.read())
        return grpc.secure_channel(f"127.0.0.1:{port}", grpc.ssl_channel_credentials(*read))

    def start_engine(self):
        super().start_engine()
        import etcd3.etcdrpc as rpc
        from etcd3.etcdrpc.auth_pb2 import Permission

        with self.channel(self.serves[0]) as channel:
            auth = rpc.AuthStub(channel)
            for name in ("root", "bank"):
                done(auth.UserAdd, rpc.AuthUserAddRequest(name=name, password=PASSWORD))
                done(auth.RoleAdd, rpc.AuthRoleAddRequest(name=name))
                done(auth.UserGrantRole, rpc.AuthUserGrantRoleRequest(user=name, role=name))
            allowed = Permission(permType=Permission.READWRITE, key=b"bank/")
            allowed.range_end = b"bank0"
            grant = rpc.AuthRoleGrantPermissionRequest(name="bank", perm=allowed)
            done(auth.RoleGrantPermission, grant)
            done(auth.AuthEnable, rpc.AuthEnableRequest())

    def metadata(self, channel):
        import etcd3.etcdrpc as rpc

        asked = rpc.AuthenticateRequest(name="root", password=PASSWORD)
        return [("token", rpc.AuthStub(channel).Authenticate(asked).token)]
