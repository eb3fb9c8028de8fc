"""The checker of use_http in Python, with FastAPI: `POST /orders` is answered by 204, or by 422 with FastAPI's own report."""
from fastapi import FastAPI
from pydantic import BaseModel, Extra, conint, conlist, constr


class Line(BaseModel, extra=Extra.forbid):
    code: constr(strict=True, regex="^P")
    count: conint(strict=True, ge=1, le=99)


class Order(BaseModel, extra=Extra.forbid):
    customer: constr(strict=True, min_length=1, max_length=80)
    lines: conlist(Line, min_items=1, max_items=50)


app = FastAPI()


@app.post("/orders", status_code=204)
def orders(order: Order) -> None:
    """Accepts an order."""
