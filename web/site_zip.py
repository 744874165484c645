"""The page in one file, which web/build and tools/release make alike."""
import zipfile

FIRST = (1980, 1, 1, 0, 0, 0)  # the earliest time that a zip can have


def write(site, target):
    """Packs a site into a zip, below a folder of that file's name: the same bytes wherever and whenever it is made."""
    part = target.with_suffix('.part')
    with zipfile.ZipFile(part, 'w', zipfile.ZIP_DEFLATED, compresslevel=9) as packed:
        for path in sorted(site.iterdir()):
            member = zipfile.ZipInfo('%s/%s' % (target.stem, path.name), FIRST)
            member.external_attr, member.compress_type = 0o100644 << 16, zipfile.ZIP_DEFLATED
            packed.writestr(member, path.read_bytes())
    part.replace(target)
