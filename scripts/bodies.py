"""Names, and the bodies that put roles and users, as forms that answer the place of the first fault."""

import re

from queries import field_security, is_pattern, role_query
from trees import anything, is_empty, is_empty_list, is_false, is_object, is_text, is_text_or_null, items, members, one_or, texts

NAME = re.compile(r"(?![_ ])[ -+\--9;-~]{1,255}(?<! )")
SECRETS = re.compile(r"[!-~]{1,128}")
CLUSTER_PRIVILEGES = (
    "all manage_security manage_api_key manage_own_api_key monitor manage read_security "
    "manage_index_templates manage_ilm manage_ingest_pipelines manage_pipeline none"
).split()
INDEX_PRIVILEGES = (
    "all read index write create_doc delete create_index delete_index manage view_index_metadata "
    "monitor maintenance auto_configure read_cross_cluster none"
).split()


def is_name(text):
    return NAME.fullmatch(text) is not None


patterns = one_or(texts(is_pattern), least=1)
index_privileges = one_or(texts(INDEX_PRIVILEGES.__contains__), least=0)
group = members(
    {
        "names": patterns,
        "privileges": index_privileges,
        "field_security": field_security,
        "query": anything,
        "allow_restricted_indices": is_false,
    },
    required=["names", "privileges"],
)
descriptor_but_queries = members(
    {
        "cluster": items(texts(CLUSTER_PRIVILEGES.__contains__)),
        "indices": items(group),
        "run_as": items(texts(is_pattern)),
        "metadata": is_object,
        "transient_metadata": is_object,
        "description": is_text,
        "applications": is_empty_list,
        "remote_indices": is_empty_list,
        "remote_cluster": is_empty_list,
        "global": is_empty,
    }
)


def descriptor(tree):
    """The first fault of a descriptor; those of queries come after all others."""
    place = descriptor_but_queries(tree)
    if place is not None:
        return place
    for number, part in enumerate(tree.get("indices", [])):
        place = role_query(part["query"]) if "query" in part else None
        if place is not None:
            return ["indices", str(number), "query", *place]
    return None


user = members(
    {
        "secret": texts(lambda text: SECRETS.fullmatch(text) is not None),
        "roles": items(texts(is_name)),
        "full_name": is_text_or_null,
        "email": is_text_or_null,
        "metadata": is_object,
    },
    required=["secret", "roles"],
)
